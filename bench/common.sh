# What bench/push and bench/crc share: they source it, with `bench` set to their name, read their words, and say `ready`.

die() { echo "bench/$bench: $2" >&2; exit "$1"; }

# Sets `here`, `root` and `work`, a temporary folder.
ready() {
    machine=$(uname -m)
    [ "$machine" = x86_64 ] ||
        die 2 "x86-64 instructions are counted, and this machine is $machine: take an x86-64 one with rustc and Debian's gcc and valgrind (an emulator runs no valgrind)"
    for tool in rustc gcc valgrind; do
        command -v $tool >/dev/null 2>&1 || die 2 "$tool is missing: apt-get install gcc valgrind, and rustc 1.81 or newer"
    done
    LC_ALL=C
    export LC_ALL
    here=$(cd "$(dirname "$0")" && pwd -P) || exit 2
    root=$(cd "$here/.." && pwd -P) || exit 2
    work=$(mktemp -d) || exit 2
    trap 'rm -rf "$work"' EXIT
    trap 'exit 2' HUP INT TERM
}

# quiet WHAT COMMAND..: runs it, and shows what it said only where it fails.
quiet() {
    what=$1
    shift
    "$@" >"$work/said" 2>&1 || { cat "$work/said" >&2; die 1 "$what"; }
}

of_c() { gcc -O3 -std=c11 -Wall -Wextra -c "$here/$1.c" -o "$work/$1.o"; }

# What the package's release profile says, but for lto.
profile='--edition 2021 -C opt-level=3 -C codegen-units=1 -C panic=abort'

# instructions [OPTIONS] PROGRAM WORDS..: what callgrind counts of it. In an empty environment and by a short name: both lie on the stack,
# and move what is copied there.
instructions() {
    (cd "$work" && env -i "$(command -v valgrind)" --tool=callgrind --callgrind-out-file=/dev/null "$@") >"$work/said" 2>&1 ||
        { cat "$work/said" >&2; return 1; }
    sed -n 's/^==[0-9]*== Collected : \([0-9]*\)$/\1/p' "$work/said" | grep .
}

ratio() { awk -v a="$1" -v b="$2" 'BEGIN { printf "%.2f", a / b }'; }
