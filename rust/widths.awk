# Holds rust/widths.txt, the first file, against the package's proved modules, the others: every function that computes or casts is listed
# with each line of it that does, and every line has its reason. It knows no types: a line computes where its code has one of the signs
# + - * / % << >> ! (-> => comparisons, the + of bounds and the ! of macros are none of them), the word `as`, or a call of core's that gives
# another answer at another width. What is not as listed is told, and ends it with 1.
#
# A function's number is made of its text, contracts with it and comments without; that of a file's declarations, of all lines outside
# of bodies that say usize. Where neither is another, no line has become one that computes with a usize.

function told(where, why) { print "widths: " where ": " why; faults++ }
function trimmed(s) { sub(/^ +/, "", s); sub(/ +$/, "", s); return s }

BEGIN { for (i = 1; i < 256; i++) code_of[sprintf("%c", i)] = i }
function number_of(s,    i, h) {
    for (i = 1; i <= length(s); i++) h = (h * 257 + code_of[substr(s, i, 1)]) % 4294967291
    return sprintf("%.0f", h)
}

# ---- The list: FILE FUNCTION NUMBER, under it the lines, under each its reason; FILE declarations NUMBER.

FNR == NR {
    place = FILENAME ":" FNR
    if ($0 ~ /^(#|$)/) next
    if ($0 ~ /^        [^ ]/) {
        if (!waits) told(place, "a reason for no line")
        if ($1 != "fixed:") wide[f] = 1
        waits = 0
        next
    }
    unreasoned()
    if ($0 ~ /^    [^ ]/) {
        if (f == "") told(place, "a line of no function")
        of_list[f, ++lines[f]] = trimmed($0)
        waits = 1
    } else if ($0 ~ /^[^ ]+ [^ ]+ [0-9]+$/) {
        f = $1 " " $2
        if (f in listed) told(place, f " is listed twice")
        listed[f] = $3
        at[f] = place
        order[++entries] = f
    } else told(place, "not a line of this list: " $0)
    next
}
function unreasoned() { if (waits) told(place, "the line before has no reason"); waits = 0 }

# ---- The modules, in which contracts are comments marked //@.

FNR == 1 {
    unreasoned()
    declared()
    n = split(FILENAME, part, "/")
    file = part[n - 1] "/" (part[n] == "mod.rs" ? "lib.rt" : substr(part[n], 1, length(part[n]) - 1) "t")
    type = name = declarations = ""
}
{
    code = $0
    contract = sub(/^\/\/@ /, "", code)
    if (!contract && code ~ /^\/\*@ .* \*\/;$/) {
        contract = 1
        code = substr(code, 4, length(code) - 7) ";"
    }
    if (!contract) sub(/\/\/.*/, "", code)
    gsub(/\/\*@[^*]*\*\//, "", code)
    code = trimmed(code)
    if (code == "" || code ~ /^ghost use / || contract && (name == "" || code ~ /^#!?\[tactic\(/)) next
    if (!contract && has_quote(code)) told(FILENAME ":" FNR, "a string or a byte, in which a sign may hide")
    if (name == "") outside()
    if (!body && !contract && code ~ /(^|[^A-Za-z0-9_])usize([^A-Za-z0-9_]|$)/) declarations = declarations code "\n"
    if (name == "") {
        if (computes(unbound(code))) told(FILENAME ":" FNR, "it computes outside of functions and constants: " code)
        next
    }
    text = text code "\n"
    if (!contract && computes(body || !is_function ? code : unbound(code))) found[++count] = code
    if (is_function ? $0 == indent "}" || code ~ /^(pub(\([^()]*\))? )?fn .*\{.*\}$/ || !body && code ~ /;$/ : code ~ /;$/) {
        if (count) ended(name, number_of(text))
        name = ""
    } else if (code ~ /\{$/) body = 1
}

# A line between functions: it may begin one.
function outside(    part) {
    body = count = 0
    text = ""
    if (code ~ /^(pub(\([^()]*\))? )?(impl|trait)[ <]/) type = type_of(code) "::"
    if ($0 ~ /^}/) type = ""
    if (!match(code, /^(pub(\([^()]*\))? )?(fn|const) [A-Za-z0-9_]+/)) return
    name = substr(code, 1, RLENGTH)
    is_function = name ~ /fn /
    sub(/.* /, "", name)
    name = file " " type name
    match($0, /^ */)
    indent = substr($0, 1, RLENGTH)
}

# Of `impl A<B> for C<D> {` this is C.A, of `impl C<D> {` and `trait C<D>: E {` it is C.
function type_of(s,    part) {
    while (gsub(/<[^<>]*>/, "", s)) ;
    gsub(/[{:]/, " ", s)
    sub(/^.*(impl|trait) +/, "", s)
    split(s, part, " ")
    return part[2] == "for" ? part[3] "." part[1] : part[1]
}
# Of a line with types, whose `+` and `>>` are no computation: without these up to where a body begins.
function unbound(s,    head) {
    match(s, /^[^{]*/)
    head = substr(s, 1, RLENGTH)
    s = substr(s, RLENGTH + 1)
    gsub(/ \+ ['A-Z]/, " ", head)
    gsub(/>>/, "> >", head)
    return head s
}
# A quote, but for a lifetime's.
function has_quote(s) { gsub(/[&<(, ]'[a-z_]+/, " ", s); return s ~ /["']/ }

function computes(s) {
    if (s ~ /<<|>>/) return 1
    gsub(/->|=>|!=|<=|>=|==/, " ", s)
    gsub(/(matches|unreachable)!/, "", s)
    if (s ~ /[.:](sum|product|pow|abs_diff|div_ceil|next_[a-z]+_of[a-z_]*|(rem|div)_euclid)[(:)]/) return 1
    if (s ~ /[.:]((count|leading)_zeros|rotate_(left|right)|reverse_bits|swap_bytes)[(:)]/) return 1
    if (s ~ /(wrapping|checked|saturating)_(add|sub|mul|div|rem|neg|pow|shl|shr)|try_from|try_into|[.]trailing_zeros/) return 1
    return s ~ /[+*\/%!-]/ || s ~ /(^|[^A-Za-z0-9_])as([^A-Za-z0-9_]|$)/
}

# A function, or a file's declarations: as listed?
function ended(f, number,    i, same) {
    all += count
    if (f in listed) {
        seen[f] = 1
        for (same = count == lines[f] + 0; same && i < count;) { i++; same = found[i] == of_list[f, i] }
        if (same && listed[f] == number) return
        if (same) { told(at[f], f ": read again what rests on it; its number is " number " now"); return }
        told(at[f], f " computes on other lines now:")
    } else told(f, "is not listed:")
    print f " " number
    for (i = 1; i <= count; i++) print "    " found[i]
}
function declared() {
    count = 0
    if (declarations != "") ended(file " declarations", number_of(declarations))
}

END {
    declared()
    for (i = 1; i <= entries; i++) if (!(order[i] in seen)) told(at[order[i]], order[i] " is no longer there, or computes no more")
    for (f in wide) usizes++
    printf "widths: %d lines that compute, a usize in %d functions; %d faults\n", all, usizes, faults
    exit faults > 0
}
