#!/usr/bin/env bash
# The names that the archive gives and takes: the calls of the header and nothing else; and of the C library at most what the header says
# it needs, which README.md says too. A program with just that, and no C library, links and runs. Needs build/libdurpaxeta.a (make lib).
set -euo pipefail
cd "$(dirname "$0")/.."
lib=build/libdurpaxeta.a
out=build/c
mkdir -p "$out"
wrong() {
    echo "symbols: $*" >&2
    exit 1
}
symbols() { nm --format=posix "$@" "$lib" | awk 'NF > 1 {print $1}' | sort -u; }

given=$(symbols --extern-only --defined-only)
diff <(package/calls.sh | sort) - <<< "$given" || wrong 'the header declares < and the archive has >'

words=$(sed -nE 's/.*Nothing else is needed but (.*), as of any C library\..*/\1/p' include/durpaxeta.h)
named=$(grep -oE 'mem[a-z]+' <<< "$words" || true)
[ -n "$named" ] || wrong 'include/durpaxeta.h does not say which functions of a C library are needed'
grep -qF "the $words of the C library" README.md || wrong "README.md should say: the $words of the C library"
# _GLOBAL_OFFSET_TABLE_ is the linker's
beyond=$(symbols --undefined-only | grep -vxF -e "$named" -e _GLOBAL_OFFSET_TABLE_ || true)
[ -z "$beyond" ] || wrong "the archive needs more than $words:" $beyond

# Each function is its own loop, not a call of itself.
# shellcheck disable=SC2046 # flags are words
gcc -std=c11 -O2 -Wall -Wextra -Werror -Wpedantic -Iinclude -ffreestanding -fno-tree-loop-distribute-patterns -nostdlib -static \
    $(sed 's/^/-DTAKES_/' <<< "$named") -o "$out/alone" tests/c/alone.c -Wl,--whole-archive "$lib" -Wl,--no-whole-archive
"$out/alone" || wrong "the program with no C library ends with $?"
echo "$(wc -l <<< "$given") calls and nothing else, with $words; a program with just these links and runs"
