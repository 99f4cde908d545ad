# A file of Rattle, written as Rust: what differs is exactly this.
#   - what is for proofs alone becomes a comment. Marked //@ are lines: `ghost use ..;`, `requires { .. }` and `ensures { .. }` with a name
#     or without, ghost members `ghost x: { .. };`, each on one line or several, `#![tactic(..)]` and `#[tactic(..)]`, `impl Model for ..`
#     and `use std::marker::Model;`. Marked /*@ */ are parts of lines: a contract in front of the `;` that ends a trait's method, `final`
#     in front of `fn`, and `Drop` as a bound or in a derive
#   - behind the derive in front of each `struct` and `enum`, but for one with a `dyn` in it, stands another one, with those of Debug,
#     PartialEq and Eq that it has not, and that no `impl` of the file gives
#   - `crate::X` becomes `ROOT::NAME::X`, as a Rattle crate is a module here, and `pub(crate)` becomes `pub(in ROOT::NAME)`
#   - `use std::X..;` becomes `use core::X..;`
#   - `use std::rt::..;`, the standard streams, becomes `use KITROOT::rt::..;`, and a program's `fn main(rt: HostRuntime) {` takes nothing
#     and makes the runtime itself
#   - one or two lines at the end import the crates that the file names
# So line n here is line n there. What is passed on is the grammar below, a part of both languages that means the same in both: a
# construct that is not in it is an error with file and line, and then nothing is written.
#
# Variables: name (of the crate), root (where the proved modules are), kitroot (where the kit's are), deps (crates that it stands on),
# kits (those of them that are the kit's), methods (names that impl blocks of the crates declare), narrow (1: no number needs more than
# 32 bits), program (1: a main.rt).

BEGIN {
    last_dep = split(deps, order, " ")
    for (i = 1; i <= last_dep; i++) dep[order[i]] = 1
    set_of(kit, kits)
    set_of(integer, "u8 u16 u32 u64 usize i8 i16 i32 i64 isize")
    set_of(method, "read write_all stdin stdout stderr " methods)
    core_names()
    core_methods()
    core_functions()
    # what Rust or Rattle reserve: none of these is a name
    set_of(reserved, "as break const crate else enum false fn if impl let loop match mod mut pub return self Self struct true use while")
    set_of(reserved, "abstract async await become box continue do dyn extern final for gen in macro move override priv ref static super")
    set_of(reserved, "trait try type typeof union unsafe unsized virtual where yield")
    set_of(reserved, "assert assume axiom decreases ensures foreign ghost invariant proof requires trusted")
    # the modules of the package, beside which a source's own of that name would be another
    set_of(taken, "proved kit core std")
    ranked(1, "||")
    ranked(2, "&&")
    ranked(3, "== != < > <= >=")
    ranked(4, "|")
    ranked(5, "^")
    ranked(6, "&")
    ranked(7, "<< >>")
    ranked(8, "+ -")
    ranked(9, "* / %")
    set_of(assigns, "= += -= *= /= %= &= |= ^= <<= >>=")
    set_of(derivable, "Clone Copy Debug Default Drop Eq Hash Ord PartialEq PartialOrd")
    main = "fn main(rt: HostRuntime) {"
    mains = "fn main() { let rt = " kitroot "::rt::HostRuntime;"
}

function set_of(set, words,    i, k) { for (i = split(words, k, " "); i > 0; i--) set[k[i]] = 1 }
function ranked(r, signs,    i, k) { for (i = split(signs, k, " "); i > 0; i--) rank[k[i]] = r }

# What is core's in Rust, since 1.81, and in Rattle the same: a name, the same arguments, the same answer. So not `clone`, which answers a
# Result in Rattle, `expect`, which takes a handle there, or `binary_search`, which may answer any of several. First names in general.
function core_names() {
    # what is in scope in both without an import: no item, import or pattern of the source's own has such a name
    set_of(prelude, "Some None Ok Err Option Result AsMut AsRef Clone Copy Default DoubleEndedIterator Drop Eq ExactSizeIterator Extend Fn")
    set_of(prelude, "FnMut FnOnce From FromIterator Into IntoIterator Iterator Ord PartialEq PartialOrd Send Sized Sync TryFrom TryInto")
    set_of(prelude, "Unpin Box String ToOwned ToString Vec")
    # traits whose methods differ, or that Rattle has no methods of
    set_of(differs, "Clone Copy Drop Model Owns Send Sync Unpin")
    set_of(of_layout, "size_of size_of_val align_of align_of_val discriminant transmute type_name")
    set_of(core_module, "array error cmp convert fmt iter marker mem num ops option result slice")
}
function core_methods() {
    # of slices and arrays
    set_of(core_method, "len is_empty get get_mut first first_mut last last_mut split_at split_at_mut split_first split_last iter iter_mut")
    set_of(core_method, "split splitn starts_with ends_with strip_prefix strip_suffix contains copy_from_slice fill swap reverse")
    set_of(core_method, "chunks chunks_exact chunks_exact_mut windows partition_point")
    # of bool
    set_of(core_method, "then then_some")
    # of Option and Result
    set_of(core_method, "is_some is_none is_some_and is_ok is_err is_ok_and is_err_and ok err ok_or ok_or_else map map_err map_or")
    set_of(core_method, "map_or_else and and_then or or_else unwrap unwrap_or unwrap_or_else unwrap_or_default copied filter take replace")
    set_of(core_method, "as_ref as_mut as_slice")
    # of iterators and ranges
    set_of(core_method, "into_iter enumerate zip rev skip step_by chain take_while skip_while map_while filter_map any all position find")
    set_of(core_method, "find_map count sum product fold try_fold nth next next_back")
    # of numbers
    set_of(core_method, "min max clamp pow abs_diff div_ceil next_multiple_of next_power_of_two rem_euclid div_euclid is_power_of_two")
    set_of(core_method, "count_ones count_zeros leading_zeros trailing_zeros rotate_left rotate_right swap_bytes reverse_bits")
    set_of(core_method, "to_le_bytes to_be_bytes")
    set_of(core_method, "wrapping_add wrapping_sub wrapping_mul wrapping_neg wrapping_shl wrapping_shr checked_add checked_sub checked_mul")
    set_of(core_method, "checked_div checked_rem checked_pow checked_shl checked_shr saturating_add saturating_sub saturating_mul")
    set_of(core_method, "is_ascii_digit is_ascii_hexdigit is_ascii_lowercase is_ascii_uppercase is_ascii_alphabetic is_ascii_alphanumeric")
    set_of(core_method, "is_ascii_whitespace is_ascii_graphic eq_ignore_ascii_case to_ascii_lowercase to_ascii_uppercase as_bytes")
    # of traits
    set_of(core_method, "eq ne lt le gt ge cmp partial_cmp then then_with is_eq is_ne is_lt is_le is_gt is_ge into try_into")
}
# By a path: of a number of a fixed width, and of any.
function core_functions() {
    set_of(of_fixed, "from try_from default from_le_bytes from_be_bytes min max abs_diff div_ceil is_power_of_two count_ones count_zeros")
    set_of(of_fixed, "leading_zeros trailing_zeros rotate_left rotate_right swap_bytes reverse_bits to_le_bytes to_be_bytes wrapping_add")
    set_of(of_fixed, "wrapping_sub wrapping_mul checked_add checked_sub checked_mul saturating_add saturating_sub saturating_mul eq cmp")
    set_of(of_fixed, "is_ascii_digit is_ascii_hexdigit is_ascii_lowercase is_ascii_uppercase is_ascii_alphabetic is_ascii_alphanumeric")
    set_of(of_fixed, "is_ascii_whitespace is_ascii_graphic to_ascii_lowercase to_ascii_uppercase")
    set_of(of_any, "from try_from default min max eq cmp")
}

{ line[NR] = $0; file = FILENAME }
# What a derive would give is given by hand.
match($0, /^impl(<.*>)? (fmt::)?(Debug|PartialEq|Eq) for [A-Z][A-Za-z0-9]*/) {
    split(substr($0, 1, RLENGTH), hand, " for ")
    sub(/.*[ :]/, "", hand[1])
    by_hand[hand[2], hand[1]] = 1
}

END {
    tokens = in_string = in_ghost = in_model = 0
    for (l = 1; l <= NR; l++) scan(l, line[l])
    if (in_string) die(NR, "a string without an end")
    if (in_ghost || in_model) die(NR, "a contract or a ghost without an end")
    for (p = 1; p < tokens; p++) {
        if (is("mod")) here[token[p + 1]] = 1
        if (is("const") || is("struct") && token[p + 2] == ";") constants[token[p + 1]] = 1
    }
    for (p = 1; p <= tokens;) item()
    for (l = 1; l <= NR; l++) print (l in ghost ? "//@ " line[l] : l in whole ? whole[l] : moved(l))
    imports(root, 0)
    imports(kitroot, 1)
}

function die(l, why) {
    printf "dist: %s:%d: %s\n    %s\n", file, l, why, line[l] > "/dev/stderr"
    exit 1
}

# ---- Lines as tokens. Kinds: W word, N number, B byte or string, S sign, L lifetime, G what is for proofs or another line that is whole,
# C contract, D derive.

function add(text, of, l, column) {
    token[++tokens] = text
    kind[tokens] = of
    row[tokens] = l
    place[tokens] = column
}

function scan(l, s) {
    if (in_string) { printable(l, s); code(l, s) }
    else if (in_ghost) ghostly(l, s)
    else if (s ~ /^ *ghost use /) {
        if (s !~ /^ *ghost use [^{}";]+(\{[^{}";]*\})?;$/ || s ~ /[\001-\037\177]/) die(l, "a ghost use of another form")
        proof(l, "ghost use")
    } else if (s ~ /^ *#!?\[tactic\(/) {
        if (s !~ /^ *#!?\[tactic\([a-z_A-Z0-9:, ()]*\)\]$/) die(l, "a tactic of another form")
        proof(l, "tactic")
    } else if (s ~ /^ *(pub )?ghost /) {
        if (s !~ /^ *(pub )?ghost [A-Za-z_0-9]+( =|:) \{/) die(l, "a ghost of another form")
        in_ghost = "G"
        ghostly(l, s)
    } else if (s ~ /^ *(requires|ensures)\*?( [a-z_A-Z0-9]+)? \{/) {
        in_ghost = "C"
        ghostly(l, s)
    } else if (in_model) {
        if (s == "}") { ghost[l] = 1; in_model = 0 }
        else if (s ~ /^ *\/\//) { printable(l, s); code(l, s) }
        else if (s != "") die(l, "it is not of a Model")
    } else if (s ~ /^impl.* Model for /) {
        if (s !~ /^impl(<[A-Za-z0-9_:, ']*>)? Model for [A-Za-z0-9_:<>, ']* \{$/) die(l, "a Model of another form")
        proof(l, "model")
        in_model = 1
    } else if (s == "use std::marker::Model;") proof(l, "use std")
    else if (s ~ /^#\[derive\(/) derive(l, s)
    else if (s ~ /^use std::(rt|io)/) {
        if (s !~ /^use std::rt::([A-Z][A-Za-z]*|\{[A-Z][A-Za-z]*(, [A-Z][A-Za-z]*)*\});$/ && s != "use std::io::Read;")
            die(l, "a use of std of another form")
        if (s ~ /^use std::rt::/) whole[l] = "use " kitroot substr(s, 8)
        add("use std", "G", l, 1)
    } else if (s ~ /^use std::/) core_use(l, s)
    else if (program && s == main) {
        whole[l] = mains
        code(l, "fn main() {")
    } else { printable(l, s); code(l, s) }
}
function printable(l, s) { if (s ~ /[^ -~]/) die(l, "a character that is not printable ASCII") }
function proof(l, what) {
    ghost[l] = 1
    add(what, "G", l, 1)
}

# A contract, or a ghost member, on one line or more: the brace that closes its first ends it, but for a member's default, or what is behind
# its type; nothing in it may hide a brace.
function ghostly(l, s,    i, c, rest) {
    if (s ~ /"|--|\{-|\/\/|\/\*|\*\/|«|»|[\001-\037\177]/)
        die(l, "a string, a comment, a quoted name or a control character in a contract")
    if (s ~ /^ *$/) die(l, "an empty line in a contract")
    ghost[l] = 1
    for (i = 1; i <= length(s); i++) {
        c = substr(s, i, 1)
        if (c == "{") depth++
        else if (c == "}" && --depth == 0) {
            rest = substr(s, i + 1)
            if (in_ghost == "G" && rest ~ /^ = \{/) continue
            if (in_ghost == "G" && rest == "," || rest == ";") { }
            else if (in_ghost == "G" || rest != "") die(l, "something follows a contract on its line")
            if (in_model) { if (in_ghost != "G" || rest != ";") die(l, "it is not of a Model") }
            else if (in_ghost == "G") add(rest == ";" ? "ghost member" : "ghost field", "G", l, 1)
            else {
                add("contract", "C", l, 1)
                if (rest == ";") {
                    delete ghost[l]
                    whole[l] = "/*@ " substr(s, 1, i) " */;"
                    add(";", "S", l, i + 1)
                }
            }
            in_ghost = 0
            return
        }
    }
    if (depth < 1) die(l, "a contract of another form")
}

function derive(l, s,    i, n, part, list) {
    if (s !~ /^#\[derive\([A-Za-z]+(, [A-Za-z]+)*\)\]$/) die(l, "a derive of another form")
    list = substr(s, 10, length(s) - 11)
    n = split(list, part, ", ")
    for (i = 1; i <= n; i++) {
        if (!(part[i] in derivable) || (l, part[i]) in derived) die(l, "a derive of another form")
        derived[l, part[i]] = 1
    }
    add(s, "D", l, 1)
}
# The derive in line l, of the type w, as it is written.
function derives(l, w,    s, more) {
    s = line[l]
    if (!sub(/, Drop/, "/*@&*/", s) && !sub(/Drop, /, "/*@&*/", s)) sub(/Drop/, "/*@&*/", s)
    if (has_dyn) return s
    more = missing(l, w, "PartialEq", missing(l, w, "Eq", ""))
    more = missing(l, w, "Debug", more)
    return s (more == "" ? "" : " #[derive(" more ")]")
}
function missing(l, w, trait, behind) {
    if ((l, trait) in derived || (w, trait) in by_hand) return behind
    return trait (behind == "" ? "" : ", " behind)
}

# What of std is core's in Rust. A module that is imported may begin a path.
function core_use(l, s,    n, i, part, whose, list) {
    if (s !~ /^use std::([a-zA-Z_]+|[a-zA-Z_]+::[a-zA-Z_]+|([a-zA-Z_]+::)?\{[a-zA-Z_]+(, [a-zA-Z_]+)*\});$/)
        die(l, "a use of std of another form")
    list = substr(s, 10, length(s) - 10)
    if (match(list, /^[a-z_]+::/)) { whose = substr(list, 1, RLENGTH - 2); list = substr(list, RLENGTH + 1) }
    gsub(/[{} ]/, "", list)
    n = split(list, part, ",")
    for (i = 1; i <= n; i++) {
        if (whose == "" && !(part[i] in core_module) || whose != "" && !(whose in core_module)) die(l, "a use of std that is not core's")
        if (part[i] == "self") part[i] = whose
        if (part[i] in differs || part[i] in of_layout || part[i] == "Result") die(l, "a name of std that means something else")
        if (part[i] in dep || part[i] in kit) die(l, "a module with a name that is taken")
        if (part[i] ~ /^[a-z]/) here[part[i]] = of_core[part[i]] = 1
    }
    whole[l] = "use core" substr(s, 8)
    add("use std", "G", l, 1)
}

function code(l, s,    i, rest, two) {
    for (i = in_string ? past_string(l, s, 1) : 1; i <= length(s); i += RLENGTH) {
        rest = substr(s, i)
        two = substr(rest, 1, 2)
        if (two == "//") { comment(l, rest); return }
        if (two == "/*") die(l, "a comment that does not begin with //")
        if (two == "b\"") {
            add("a string", "B", l, i)
            i = past_string(l, s, i + 2)
            RLENGTH = 0
        } else if (two == "b'") {
            if (!match(rest, /^b'([^'\\]|\\[nr'"\\])'/)) die(l, "a byte of another form")
            add("a byte", "B", l, i)
        } else if (!match(rest, /^ +/)) {
            if (match(rest, /^[A-Za-z_][A-Za-z0-9_]*/)) add(substr(rest, 1, RLENGTH), "W", l, i)
            else if (match(rest, /^[0-9][A-Za-z0-9_]*/)) add(number(l, substr(rest, 1, RLENGTH)), "N", l, i)
            else if (match(rest, /^'[a-z_]+/) && substr(rest, RLENGTH + 1, 1) != "'") add(substr(rest, 1, RLENGTH), "L", l, i)
            else if (match(rest, /^(<<=|>>=|\.\.=)/) || match(rest, /^(::|->|=>|[=!<>+*\/%&|^-]=|&&|\|\||<<|>>|\.\.)/) ||
                match(rest, /^[][(){}<>,;:.=+*\/%&|^!?@-]/)) add(substr(rest, 1, RLENGTH), "S", l, i)
            else die(l, "the character " substr(rest, 1, 1))
        }
    }
}

function comment(l, s) {
    if (s ~ /^\/\/[@\/!]/) die(l, "a comment that Rust, or the turning back, takes for something else")
    if (s ~ /crate::|\/\*@|pub\(in /) die(l, "crate::, or what the turning back takes for something else, in a comment")
}

# What is behind a string that goes on from i. Where a backslash ends the line it goes on in the next, whose leading spaces are no part.
function past_string(l, s, i,    c) {
    in_string = 1
    if (s ~ /^ *$/) die(l, "an empty line in a string")
    for (; i <= length(s); i++) {
        c = substr(s, i, 1)
        if (substr(s, i, 7) == "crate::" || substr(s, i, 3) == "/*@" || substr(s, i, 7) == "pub(in ")
            die(l, "crate::, or what the turning back takes for something else, in a string")
        if (c == "\"") { in_string = 0; return i + 1 }
        if (c == "\\" && ++i <= length(s) && substr(s, i, 1) !~ /[nr"'\\]/) die(l, "an escape of another form")
    }
    if (i == length(s) + 1) die(l, "a string without an end")
    return i
}

function number(l, n) {
    if (n !~ /^(0x[0-9A-Fa-f_]+|0b[01_]+|[0-9][0-9_]*)([ui](8|16|32|64|size))?$/) die(l, "a number of another form")
    if (narrow && n !~ /[ui]64$/ && is_wide(n)) die(l, "a number of more than 32 bits, which a usize may not have")
    return n
}
function is_wide(n) {
    sub(/[ui](8|16|32|size)$/, "", n)
    gsub(/_/, "", n)
    if (sub(/^0x0*/, "", n)) return length(n) > 8
    if (sub(/^0b0*/, "", n)) return length(n) > 32
    return n + 0 > 4294967295
}

# ---- The grammar. `p` is the next token; a function takes what it is named after.

function is(s) { return p <= tokens && kind[p] != "B" && token[p] == s }
function is_kind(k) { return p <= tokens && kind[p] == k }
function wanted(what) {
    if (p > tokens) die(NR, what " is wanted, and the file ends")
    die(row[p], what " is wanted, not " token[p])
}
# Of the token that was taken last.
function refused(why) { p--; die(row[p], why ": " token[p]) }
function take(s) { if (!is(s)) wanted(s); p++ }
function comma(end) { if (!is(end)) take(",") }
# The first half of a sign of two, where types end: the second is the next token.
function halved(sign, half) {
    if (p <= tokens && kind[p] == "S" && token[p] == sign) { token[p] = substr(sign, 2); place[p]++; return 1 }
    return 0
}
function greater() { if (!halved(">>")) take(">") }

# A name; of a value, a field or a module; of a type, a variant or a constant.
function is_name() { return is_kind("W") && !(token[p] in reserved) && token[p] != "_" }
function is_small() { return is_name() && token[p] ~ /^[a-z_][a-z0-9_]*$/ }
function small() { if (!is_small()) wanted("a name"); return token[p++] }
function capital() { if (!is_name() || token[p] !~ /^[A-Z]/) wanted("a name with a capital"); return token[p++] }
function any_name() { return is_small() ? small() : capital() }
# The name of a type, a trait or a constant of the source's own.
function own_name(    w) { w = capital(); if (w in prelude) refused("a name of Rust's"); return w }

function item(    start, w) {
    start = p
    if (is_kind("G")) { if (token[p] ~ /^ghost [mf]/) wanted("an item that is known"); p++; return }
    if (is("impl")) { implementation(); return }
    if (is_kind("D")) { is_ordered = (row[p], "Ord") in derived || (row[p], "PartialOrd") in derived; p++ }
    visibility()
    if (is("struct") || is("enum")) {
        if (!(p > 1 && kind[start] == "D" && place[start + 1] == 1)) wanted("a type at the beginning of its line, behind its derive")
        w = token[p + 1]
        has_dyn = 0
        if (is("enum")) enumeration(); else structure()
        whole[row[start]] = derives(row[start], w)
    } else if (kind[start] == "D") wanted("a type")
    else if (is("use")) use()
    else if (is("mod")) mod()
    else if (is("const")) constant(0)
    else if (is("trait")) declaration()
    else if (is("type")) alias()
    else if (is("fn")) procedure(0)
    else wanted("an item that is known")
}
# `pub(crate)` is less than all of the package.
function visibility() {
    if (!is("pub")) return
    p++
    if (!is("(") || token[p + 1] != "crate") return
    if (program) wanted("a program in one file")
    if (row[p - 1] != row[p + 2] || substr(line[row[p]], place[p - 1], 10) != "pub(crate)") wanted("pub(crate) in one piece")
    p++
    edit(p, place[p], 5, "in " root "::" name)
    p++
    take(")")
}

# The traits that Rattle has otherwise are refused; what a derive would give too is remembered.
function implementation(    trait) {
    take("impl")
    if (is("<")) generics()
    type()
    if (is("for")) {
        trait = last_name
        if (trait in differs) refused("a trait that is another one in Rust")
        p++
        type()
    }
    if (is("where")) where()
    for (take("{"); !is("}"); member(trait != "", 0)) ;
    p++
}
function declaration(    w) {
    take("trait")
    own_name()
    if (is("<")) generics()
    if (is(":")) bounds()
    if (is("where")) where()
    for (take("{"); !is("}"); member(1, 1)) ;
    p++
}
# Of an impl block or a trait.
function member(of_trait, declared) {
    if (is_kind("G")) { if (token[p] !~ /^(ghost member|ghost use|tactic)$/) wanted("a member that is known"); p++; return }
    if (!of_trait) visibility()
    if (is("const")) constant(declared)
    else if (is("type") && of_trait) associated(declared)
    else {
        if (declared && is("final")) { mark(p, place[p], "final "); p++ }
        procedure(1, declared)
    }
}
function associated(declared) {
    take("type")
    capital()
    if (declared && is(":")) bounds()
    if (!declared) { take("="); type() }
    take(";")
}
function alias() {
    take("type")
    own_name()
    if (is("<")) generics()
    take("=")
    type()
    take(";")
}

# <'a, T: Bound, const N: usize>
function generics() {
    for (take("<"); !is(">"); comma(">")) {
        if (is_kind("L")) p++
        else if (is("const")) { p++; capital(); take(":"); if (!is_integer() && !is("bool")) wanted("a type of numbers"); p++ }
        else { own_name(); if (is(":")) bounds() }
    }
    p++
}
function where() {
    for (take("where"); !is("{") && !is(";") && !is_kind("C"); ) {
        type()
        if (!is(":")) wanted("a bound")
        bounds()
        if (is(",")) p++
        else if (!is("{") && !is(";") && !is_kind("C")) wanted(",")
    }
}
# What is behind `:`, or `impl` or `dyn`. Each type may be dropped in Rust: a bound that says so is for proofs.
function bounds(    start, n, drops) {
    start = p++
    for (n = 0; ; n++) {
        if (is_kind("L")) p++
        else if (is("Drop") && token[p + 1] != "::") {
            drops = p++
            if (n) mark(drops - 1, place[drops - 1] - 1, " + Drop")
            else if (is("+")) mark(drops, place[drops], "Drop + ")
            else if (token[start] == ":") mark(start, place[start], ": Drop")
            else wanted("a bound beside Drop")
            if (!n && is("+")) { p++; n = -1; continue }
        } else bound()
        if (!is("+")) return
        p++
    }
}
function bound() {
    if (is("crate")) { ours(); take("::"); for (; is_small(); take("::")) p++ }
    else if (is_small()) { from(small()); for (take("::"); is_small(); take("::")) p++ }
    last_name = capital()
    if (last_name ~ /^Fn(Mut|Once)?$/ && is("(")) {
        types()
        if (is("->")) { p++; type() }
    } else if (is("<")) arguments_of_types()
}

function use(    w) {
    take("use")
    if (is("crate")) ours()
    else from(small())
    do {
        take("::")
        if (is("{")) { names(); take(";"); return }
        w = imported()
    } while (is("::"))
    take(";")
    if (w ~ /^[a-z]/) here[w] = 1
}
function imported(    w) { w = any_name(); if (w in prelude) refused("a name of Rust's"); return w }
# Several names of one module.
function names(    w) {
    for (take("{"); !is("}"); comma("}")) {
        w = imported()
        if (w ~ /^[a-z]/) here[w] = 1
    }
    p++
}
# `crate`, which is moved when it is printed.
function ours() {
    if (program) wanted("a program in one file")
    if (row[p + 1] != row[p] || token[p + 1] != "::" || place[p + 1] != place[p] + 5) wanted("crate:: in one piece")
    edit(p, place[p], 5, root "::" name)
    p++
    if (token[p + 1] in taken) { p += 2; refused("a module with a name that is taken") }
}
# A path begins with a crate or a module of this file. No module has a crate's name; a function may.
function from(w) {
    if (w in dep) { named[w] = 1; return }
    if (!(w in here)) refused("crates.txt does not say that " name " stands on it")
}

function mod(    w) {
    take("mod")
    if (program) wanted("a program in one file")
    w = small()
    if (w in dep || w in kit || w in taken) refused("a module with a name that is taken")
    take(";")
}

function constant(declared) {
    take("const")
    if (own_name() ~ /[a-z]/) refused("a constant that is not in capitals")
    take(":")
    type()
    if (declared && is(";")) { p++; return }
    take("=")
    expression(0)
    take(";")
}

function enumeration() {
    take("enum")
    own_name()
    if (is("<")) generics()
    for (take("{"); !is("}"); comma("}")) {
        capital()
        if (is("(")) fields(")", 0)
        else if (is("{")) fields("}", 0)
        else if (is("=")) { if (is_ordered) wanted("no number beside an order, which Rust goes by then"); p++; literal() }
    }
    p++
}
function structure() {
    take("struct")
    own_name()
    if (is("<")) generics()
    if (is("(")) { fields(")", 1); take(";") }
    else if (is("{")) fields("}", 1)
    else take(";")
}
function fields(end, may_be_pub) {
    for (p++; !is(end);) {
        if (end == "}" && may_be_pub && is_kind("G") && token[p] == "ghost field") { p++; continue }
        if (may_be_pub) visibility()
        if (end == "}") { small(); take(":") }
        type()
        comma(end)
    }
    p++
}

function type() {
    if (is("&") || is("&&")) {
        if (!halved("&&")) p++
        if (is_kind("L")) p++
        if (is("mut")) p++
        if (is("str")) p++
        else type()
    } else if (is("[")) {
        p++
        type()
        if (is(";")) { p++; expression(0) }
        take("]")
    } else if (is("(")) {
        types()
    } else if (is("impl") || is("dyn")) { if (is("dyn")) has_dyn = 1; bounds() }
    else if (is_integer() || is("bool")) p++
    else {
        if (is("Self")) p++
        else {
            if (is("crate")) { ours(); take("::"); for (; is_small(); take("::")) p++ }
            else if (is_small()) { from(small()); for (take("::"); is_small(); take("::")) p++ }
            last_name = capital()
        }
        if (is("<")) arguments_of_types()
        for (; is("::");) { p++; capital(); if (is("<")) arguments_of_types() }
    }
}
function types() { for (take("("); !is(")"); comma(")")) type(); p++ }
# <A, 4, { B::C }, Item = D>
function arguments_of_types(    w) {
    w = last_name
    for (take("<"); !is(">") && !is(">>"); ) {
        if (is_kind("L")) p++
        else if (is_kind("N") || is("true") || is("false")) p++
        else if (is("{")) block()
        else if (is_name() && token[p + 1] == "=") { p += 2; type() }
        else type()
        if (!is(">") && !is(">>")) take(",")
    }
    greater()
    last_name = w
}
function is_integer() { return is_kind("W") && token[p] in integer }

# A trait's method has no name of core's: at a type of core's Rust could take the one for the other.
function procedure(of_type, declared,    lines) {
    take("fn")
    if (small() in core_method && declared) refused("a method of core's")
    if (is("<")) generics()
    for (take("("); !is(")"); comma(")")) parameter(of_type)
    p++
    if (is("->")) { p++; type() }
    if (is("where")) where()
    for (; is_kind("C"); p++) lines = 1
    if (declared && is(";")) { p++; return }
    if (lines && line[row[p]] !~ /^ *\{$/) wanted("a line { behind contracts")
    block()
}
function parameter(of_type,    start) {
    start = p
    if (is("&")) { p++; if (is_kind("L")) p++ }
    if (is("mut")) p++
    if (is("self") && of_type) { p++; return }
    if (token[start] == "&") wanted("self")
    if (is("self")) { p++; return }
    small()
    take(":")
    type()
}

# ---- Statements.

function block() {
    for (take("{"); !is("}");) {
        if (is("let")) binding()
        else if (has_block()) {
            with_block()
            if (is(";")) p++
            else alone()
        } else if (effect(0) || !is("}")) take(";")
    }
    p++
}
# An expression, or an assignment: says whether it was one. What is assigned to is a place without calls: then it is all the same which
# side comes first.
function effect(bare,    start) {
    start = p
    expression(bare)
    if (!is_kind("S") || !(token[p] in assigns)) return 0
    for (; start < p; start++) if (kind[start] == "S" && token[start] == "(") wanted("a place without calls")
    p++
    expression(bare)
    return 1
}
# An expression that ends in a block ends there; a `!` or a `*` begins the next one in both languages.
function alone() { if (is("as") || is_kind("S") && !is("{") && !is("}") && !is("!") && !is("*")) wanted("; or a comma behind a block") }

function binding() {
    take("let")
    pattern()
    if (is(":")) { p++; type() }
    take("=")
    expression(0)
    if (is("else")) { p++; block() }
    take(";")
}

function has_block() { return is("if") || is("match") || is("while") || is("loop") || is("for") || is("{") }
function with_block() {
    if (is("{")) block()
    else if (is("loop")) { p++; block() }
    else if (is("while")) { p++; tested(); block() }
    else if (is("for")) { p++; pattern(); take("in"); ranged(1); block() }
    else if (is("match")) matching()
    else condition()
}
function condition() {
    take("if")
    tested()
    block()
    if (is("else")) { p++; if (is("if")) condition(); else block() }
}
# What is behind `if` or `while`. What a pattern is held against has no && and ||: these would go on with the test in one edition.
function tested() {
    if (is("let")) { p++; pattern(); take("="); binary(3, 1) }
    else expression(1)
}
function matching() {
    take("match")
    expression(1)
    for (take("{"); !is("}");) {
        pattern()
        if (is("if")) { p++; expression(1) }
        take("=>")
        if (has_block()) {
            with_block()
            if (is(",")) p++
            else if (is("as") || is(".") || is("?")) wanted("a comma behind a block")
        } else { effect(0); comma("}") }
    }
    p++
}

# A name in small letters binds, as constants are in capitals; a variant is named by its type. A name alone in capitals is a constant of
# this file or a type of it that has no fields.
function pattern() { if (is("|")) wanted("a pattern"); for (one_pattern(); is("|"); one_pattern()) p++ }
function one_pattern() {
    if (is("_") || is("true") || is("false")) p++
    else if (is_kind("B") && token[p] == "a string") p++
    else if (is("-") || is_kind("N") || is_kind("B")) { literal(); if (is("..=")) { p++; literal() } }
    else if (is("(")) patterns(")")
    else if (is("[")) patterns("]")
    else if (is("&") || is("&&")) { p++; one_pattern() }
    else if (is("mut")) { p++; small() }
    else if (is_small() && token[p + 1] != "::") { p++; if (is("@")) { p++; one_pattern() } }
    else if (is_name() && token[p] in constants) p++
    else if (is_most()) p += 3
    else parts()
}
# Of the parts of a tuple, a variant or a slice; `..` stands for any.
function patterns(end) {
    for (p++; !is(end); comma(end)) {
        if (end == "]" && is_small() && token[p + 1] == "@" && token[p + 2] == "..") p += 3
        else if (is("..")) p++
        else pattern()
    }
    p++
}
function literal() {
    if (is("-")) p++
    if (!is_kind("N") && !(is_kind("B") && token[p] == "a byte")) wanted("a number or a byte")
    p++
}
function parts(    w, long) {
    if (is("crate")) ours()
    else if (is("Self")) p++
    else if (is_small()) from(small())
    else if (is("None")) { p++; return }
    else if (is("Some") || is("Ok") || is("Err")) { p++; if (!is("(")) refused("a pattern by a name alone") }
    else if ((w = capital()) in prelude && !((w == "Option" || w == "Result") && is("::"))) refused("a name of Rust's")
    for (; is("::"); long = 1) { p++; any_name() }
    if (is("(")) patterns(")")
    else if (is("{")) {
        for (p++; !is("}"); comma("}")) {
            if (is("..")) { p++; if (!is("}")) wanted("}"); continue }
            if (is("mut")) { p++; small() }
            else { small(); if (is(":")) { p++; pattern() } }
        }
        p++
    }
    else if (!long) refused("a pattern by a name alone")
}

# ---- Expressions. Where `bare` is 1 a block follows, and so no literal of a struct may stand, as in Rust.

function expression(bare) {
    if (is("return") || is("break")) { p++; if (!is(";") && !is("}") && !is(",") && !is(")")) expression(bare) }
    else if (is("continue")) p++
    else if (is("|") || is("||") || is("move")) closure(bare)
    else binary(1, bare)
}
# A range too, with both ends: one without its second counts on in Rust, and Rattle's ends.
function ranged(bare) {
    expression(bare)
    if (is("..") || is("..=")) { p++; binary(1, bare) }
}
function closure(bare,    lines) {
    if (is("move")) p++
    if (is("||")) p++
    else {
        for (take("|"); !is("|"); comma("|")) { one_pattern(); if (is(":")) { p++; type() } }
        p++
    }
    if (is("->")) { p++; type(); lines = 1 }
    for (; is_kind("C"); p++) lines = 1
    if (lines) block()
    else effect(bare)
}
function binary(least, bare,    r) {
    cast(bare)
    while (is_kind("S") && token[p] in rank && rank[token[p]] >= least) {
        r = rank[token[p++]]
        binary(r + 1, bare)
        if (r == 3 && is_kind("S") && token[p] in rank && rank[token[p]] == 3) wanted("one comparison")
    }
}
function cast(bare) {
    unary(bare)
    while (is("as")) {
        p++
        if (!is_integer()) wanted("a type of integers")
        p++
        if (is("<") || is("<<")) wanted("another sign behind a cast")
    }
}
function unary(bare) {
    if (is("-") || is("!") || is("*")) { p++; unary(bare) }
    else if (is("&")) { p++; if (is("mut")) p++; unary(bare) }
    else if (primary(bare)) behind()
}

# Says whether fields, methods and places may follow.
function primary(bare) {
    if (is_kind("N") || is("true") || is("false")) { p++; return 0 }
    if (is_kind("B")) return token[p++] == "a string"
    if (has_block()) {
        if (bare) wanted("an expression without a block")
        with_block()
        return 0
    }
    if (is("(")) tuple()
    else if (is("[")) elements()
    else if (is("self")) p++
    else path(bare)
    return 1
}
# (), (a), (a, b), (0..n)
function tuple() {
    take("(")
    if (!is(")")) ranged(0)
    while (is(",")) { p++; if (!is(")")) expression(0) }
    take(")")
}
function elements() {
    take("[")
    if (!is("]")) expression(0)
    if (is(";")) { p++; expression(0) }
    else while (is(",")) { p++; if (!is("]")) expression(0) }
    take("]")
}
function path(bare,    w, begins, long) {
    if (is_most()) { p += 3; return }
    if (is("matches") && token[p + 1] == "!") { matches(); return }
    if (is("unreachable") && token[p + 1] == "!") { p += 2; take("("); take(")"); return }
    if (is_integer() || is("bool")) { of_number(); return }
    if (is("crate")) ours()
    else if (is("Self")) w = token[p++]
    else if (is("<")) qualified()
    else if (is_small() && token[p + 1] == "::") from(begins = small())
    else if (is_name()) w = any_name()
    else wanted("an expression that is known")
    for (; is("::"); long = 1) { p++; if (is("<")) arguments_of_types(); else w = any_name() }
    if (begins in of_core && w in of_layout) refused("a type may lie otherwise in Rust")
    if (is("(")) arguments()
    else if (is("{") && !bare && w ~ /^[A-Z]/ && !(w in prelude)) {
        for (p++; !is("}"); comma("}")) {
            if (is("..")) { base(); break }
            small()
            if (is(":")) { p++; expression(0) }
        }
        take("}")
    }
}
# What the fields that are not named are taken from. Where all are named Rattle does not look at it: it has no index, which would be tested
# in Rust, and changes nothing.
function base(    start) {
    start = ++p
    expression(0)
    for (; start < p; start++)
        if (kind[start] != "B" && (token[start] == "[" || token[start] == "mut")) wanted("a base without an index or &mut")
}
# <T as Trait>
function qualified() { take("<"); type(); take("as"); bound(); greater(); if (!is("::")) wanted("::") }
function matches() {
    p += 2
    take("(")
    expression(0)
    take(",")
    pattern()
    if (is("if")) { p++; expression(0) }
    if (is(",")) p++
    take(")")
}
# u64::MAX and the like; that of usize is another number at another width.
function is_most() { return is_integer() && token[p] !~ /size$/ && token[p + 1] == "::" && token[p + 2] ~ /^(MAX|MIN|BITS)$/ }
# A function of a type of numbers, by its path.
function of_number(    w) {
    w = token[p++]
    take("::")
    if (!(token[p] in of_any) && (w ~ /size$/ || !(token[p] in of_fixed))) wanted("a function that is known of " w)
    p++
    if (is("(")) arguments()
}
function arguments() { for (take("("); !is(")"); comma(")")) ranged(0); p++ }
# Those of a method that takes a place or a part, as an index does.
function parted() { take("("); if (!is(")")) within(); if (is(",")) p++; take(")") }
function behind(    w) {
    while (is(".") || is("[") || is("?") || is("(")) {
        if (is("[")) { p++; within(); take("]") }
        else if (is("?")) p++
        else if (is("(")) arguments()
        else {
            p++
            if (is_kind("N") && token[p] ~ /^[0-9]$/) { p++; continue }
            w = small()
            if (is("::")) { p++; arguments_of_types(); if (!is("(")) wanted("(") }
            if (is("(")) {
                if (!(w in method) && !(w in core_method)) refused("neither a crate nor core has this method")
                if (w ~ /^get(_mut)?$/) parted(); else arguments()
            }
        }
    }
}
# A place, or a part from one place up to another.
function within() {
    if (!is("..") && !is("..=")) expression(0)
    if (is("..") || is("..=")) { p++; if (!is("]") && !is(")") && !is(",")) expression(0) }
}

# ---- What is written.

# Token t is of what is written otherwise: `long` characters from `column` on as `text`; or, as a mark, this text as a comment.
function edit(t, column, long, text,    l) {
    l = row[t]
    at[l, ++edits[l]] = column
    size[l, edits[l]] = long
    as_text[l, edits[l]] = text
}
function mark(t, column, text) {
    if (substr(line[row[t]], column, length(text)) != text) die(row[t], "a line with \"" text "\" in one piece is wanted")
    edit(t, column, length(text), "/*@" text "*/")
}
function moved(l,    s, i) {
    s = line[l]
    for (i = edits[l]; i > 0; i--) s = substr(s, 1, at[l, i] - 1) as_text[l, i] substr(s, at[l, i] + size[l, i])
    return s
}

# One line that imports the crates, or those of the kit, that the file names, in the order of crates.txt.
function imports(from_root, of_kit,    i, all, many) {
    for (i = 1; i <= last_dep; i++)
        if (order[i] in named && (order[i] in kit) == of_kit) all = all (many++ ? ", " : "") order[i]
    if (many) print "use " from_root "::" (many > 1 ? "{" all "}" : all) ";"
}
