#!/usr/bin/env python3
"""respell.py: brings this repository's own names to the spelling that its toolchain's library has.

usage: python3 tools/respell.py [NAMES.json]      at the top of the checkout, once, right after the toolchain's port.py

Definitions, lemmas, constructors and fields of specs/ and proofs/ that are written in camelCase or with hyphens get snake_case; types,
facts and modules keep their capitals. Where a lemma would then have the name of a definition or field, it gets `_lem` behind it. Names of
src/, of the library and of what the check makes (`invariant-loop-i`) stay. A step named after a function of src/ has its underscores back.
Each root file gets the line `#![tactic(auto)]`, and each crate is laid out. NAMES.json gets old and new names.
"""

import collections
import glob
import json
import os
import re
import subprocess
import sys

TOKEN = r"[^\s(){}\[\];,.@`\"|]+"
KEEP = re.compile(r"^(invariant|decreases)-loop")
DEFINED = re.compile(r"(?m)^\s*(?:abbrev |unfoldable |opaque |law |rule )*(?:pub )?((?:%s)(?: (?:%s))*) : " % (r"[^\s:(){}.,;=]+", r"[^\s:(){}.,;=]+"))


def antt_files():
    return sorted(glob.glob("crates/*/specs/**/*.antt", recursive=True) + glob.glob("crates/*/proofs/**/*.antt", recursive=True))


def rt_files():
    return sorted(glob.glob("crates/*/src/**/*.rt", recursive=True))


def text(path):
    with open(path, encoding="utf-8") as f:
        return f.read()


def code(t):
    return re.sub(r"(?m)(^|(?<=\s))--(\s.*)?$", "", t)


def camel(n):
    return bool(re.match(r"[a-z][A-Za-z0-9_'-]*[A-Z]", n)) and not re.search(r"[^A-Za-z0-9_'-]", n)


def hyphen(n):
    return "-" in n[1:-1] and not re.search(r"[^A-Za-z0-9_'-]", n) and not KEEP.match(n)


def snake(n):
    if camel(n):
        n = re.sub(r"(?<=[a-z0-9])([A-Z])", lambda m: "_" + m.group(1).lower(), n)
    return n.replace("-", "_")


def survey():
    """Our names, and where each is defined; functions of src/."""
    places = collections.defaultdict(set)
    for f in antt_files():
        for m in DEFINED.finditer(code(text(f))):
            for n in m.group(1).split():
                places[n].add(f)
    functions = set()
    for f in rt_files():
        functions.update(re.findall(r"\bfn ([a-z_0-9]+)", text(f)))
    return places, functions


def plan(places, functions):
    """Old name to new name."""
    groups = collections.defaultdict(list)
    for n in places:
        groups[snake(n)].append(n)
    to = {}
    for new, olds in groups.items():
        turned = [n for n in olds if camel(n) or hyphen(n)]
        if not turned:
            continue
        if len(olds) == 1:
            to[olds[0]] = new
            continue
        # a definition or field keeps the plain name, a lemma gets _lem
        in_specs = [n for n in olds if any("/specs/" in f for f in places[n])]
        first = next((n for n in olds if camel(n)), None) or (in_specs or olds)[0]
        for n in olds:
            to[n] = new if n == first else new + "_lem"
    return to


def turn_token(n, before, to, functions):
    """A token of antt; before is the text in front of it."""
    new = to.get(n)
    step = before.endswith(".") and not re.search(r"(Rattle|specs|proofs)[\w.]*\.$", before)
    if step and hyphen(n):
        # a step of the walk, or a field: never a lemma
        return n.replace("-", "_")
    if step and new and new.endswith("_lem"):
        return n
    if new:
        return new
    return n


def turn_antt(t, to, functions, kit_words):
    out = []
    for line in t.split("\n"):
        at = re.search(r"(^|\s)--(\s|$)", line)
        body, note = (line[: at.start()], line[at.start() :]) if at else (line, "")
        done, last = [], 0
        for m in re.finditer(TOKEN, body):
            done.append(body[last : m.start()])
            n = m.group(0)
            prime = ""
            new = turn_token(n, body[: m.start()], to, functions)
            if new == n and hyphen(n) and n not in kit_words:
                new = n.replace("-", "_")
            elif new == n and camel(n) and n not in kit_words:
                new = snake(n)
            done.append(new + prime)
            last = m.end()
        done.append(body[last:])
        out.append("".join(done) + turn_note(note, to))
    return "\n".join(out)


def turn_note(t, to):
    """A comment or a page: camelCase names of ours anywhere, others between backticks."""

    def ticked(m):
        return "`" + re.sub(TOKEN, lambda k: to.get(k.group(0), k.group(0)), m.group(1)) + "`"

    t = re.sub(r"`([^`\n]*)`", ticked, t)
    return re.sub(r"(?<![\w.'-])[a-z][a-z0-9]*[A-Z][A-Za-z0-9]*(?![\w'-])", lambda m: to.get(m.group(0), m.group(0)), t)


def turn_rt(t, to):
    """Clauses and ghost imports of a source file, and what comments name."""
    out, depth, ghost = [], 0, False
    for line in t.split("\n"):
        at = re.search(r"(^|\s)//", line)
        body, note = (line[: at.start()], line[at.start() :]) if at else (line, "")
        if depth == 0 and not ghost:
            if re.match(r"\s*(pub )?ghost use ", body):
                ghost = True
            elif re.match(r"\s*(requires|ensures|ghost)\b", body):
                depth = -1
        if ghost or depth:
            body = re.sub(TOKEN, lambda m: to.get(m.group(0), m.group(0)), body)
        if ghost:
            ghost = ";" not in body
        elif depth:
            count = (0 if depth == -1 else depth) + body.count("{") - body.count("}")
            depth = count if count > 0 or (depth == -1 and "{" not in body) else 0
            if depth == 0 and count < 0:
                depth = 0
        out.append(body + turn_note(note, to))
    return "\n".join(out)


def root_line(t):
    if "#![tactic(" in t:
        return t
    lines = t.split("\n")
    i = 0
    while i < len(lines) and lines[i].startswith("//"):
        i += 1
    return "\n".join(lines[:i] + ["#![tactic(auto)]"] + lines[i:])


def library_words():
    words = set()
    guide = subprocess.run(["rt", "doc"], capture_output=True, text=True).stdout.strip()
    kit = os.path.join(os.path.dirname(guide), "rattle", "")
    for part in ("std core std_alloc std_collections std_heap std_io io libc os logic antt/lib antt/port/mathlib/src/Core").split():
        for f in glob.glob(kit + part + "/**/*.antt", recursive=True):
            words.update(re.findall(TOKEN, open(f, encoding="utf-8", errors="replace").read()))
    return words


def write(path, new, old):
    if new != old:
        with open(path, "w", encoding="utf-8") as f:
            f.write(new)


def main(argv):
    places, functions = survey()
    to = plan(places, functions)
    kit_words = library_words()
    for f in antt_files():
        t = text(f)
        write(f, turn_antt(t, to, functions, kit_words), t)
    for f in rt_files():
        t = text(f)
        new = turn_rt(t, to)
        if os.path.basename(f) in ("lib.rt", "main.rt") and os.path.dirname(f).endswith("/src"):
            new = root_line(new)
        write(f, new, t)
    for c in sorted(glob.glob("crates/*")):
        subprocess.run(["rt", "fmt"], cwd=c, stdout=subprocess.DEVNULL)
    if argv:
        with open(argv[0], "w", encoding="utf-8") as f:
            json.dump(to, f, ensure_ascii=False, indent=0, sort_keys=True)
    print(f"{len(to)} names")


if __name__ == "__main__":
    main(sys.argv[1:])
