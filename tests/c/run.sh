#!/usr/bin/env bash
# The C interface: compile with every warning an error, run, run under valgrind, run with the sanitizers, but for long arrays; the
# header in C99, C11, C++11 and C++17. Needs build/libdurpaxeta.a (make lib). Any failure ends the script with a status other than 0.
set -euo pipefail
cd "$(dirname "$0")/../.."

lib=build/libdurpaxeta.a
if [ ! -f "$lib" ]; then
    echo "tests/c/run.sh: $lib is not there; run 'make lib' first" >&2
    exit 1
fi
out=build/c
mkdir -p "$out"
warnings=(-Wall -Wextra -Werror -Wpedantic -Iinclude)

# For the header, which others compile with the warnings that they like.
every=("${warnings[@]}" -Wconversion -Wsign-conversion -Wcast-qual -Wcast-align -Wshadow -Wundef -Wswitch-default -Wformat=2
    -Wdouble-promotion -Wpadded -Wnull-dereference)
c=(-Wstrict-prototypes -Wmissing-prototypes -Wc++-compat -Wdeclaration-after-statement)
cpp=(-x c++ -Wold-style-cast -Wuseless-cast -Wzero-as-null-pointer-constant -Weffc++)

echo "header alone: every warning, and no symbol"
echo '#include "durpaxeta.h"' > "$out/header.c"
gcc -std=c99 "${every[@]}" "${c[@]}" -c -o "$out/header.o" "$out/header.c"
if nm "$out/header.o" | grep .; then
    echo "tests/c/run.sh: the header defines the symbols above" >&2
    exit 1
fi
g++ -std=c++11 "${every[@]}" "${cpp[@]}" -fsyntax-only "$out/header.c"
if command -v clang++ > /dev/null; then
    clang -std=c11 -Weverything -Werror -Iinclude -fsyntax-only "$out/header.c"
    clang++ -x c++ -std=c++17 -Weverything -Werror -Iinclude -fsyntax-only "$out/header.c"
else
    echo "(clang is not here: gcc and g++ only)"
fi

echo "what the header defines, C11 and C++17"
gcc -std=c11 -O2 "${every[@]}" "${c[@]}" -o "$out/inline" tests/c/inline.c "$lib"
"$out/inline"
g++ -std=c++17 -O2 "${every[@]}" "${cpp[@]}" -c -o "$out/inline.o" tests/c/inline.c
g++ -o "$out/inline-cpp" "$out/inline.o" "$lib"
"$out/inline-cpp"

echo "plain"
for test in test table guests arrangements live; do
    gcc -std=c11 -O2 "${warnings[@]}" -o "$out/$test" "tests/c/$test.c" "$lib"
    "$out/$test"
done

# Its gigabytes of addresses are nothing for valgrind and the sanitizers, which keep a shadow of them.
echo "long arrays, in little memory"
gcc -std=c11 -O2 "${warnings[@]}" -o "$out/long" tests/c/long.c "$lib"
"$out/long"

echo "stack"
gcc -std=c11 -O2 "${warnings[@]}" -o "$out/stack" tests/c/stack.c "$lib"
"$out/stack"

echo "valgrind"
for test in test table guests arrangements live inline; do
    gcc -std=c11 -O1 -g "${warnings[@]}" -o "$out/$test-valgrind" "tests/c/$test.c" "$lib"
    valgrind --quiet --error-exitcode=1 --leak-check=full --track-origins=yes "$out/$test-valgrind"
done

echo "address and undefined behaviour sanitizers"
for test in test table guests arrangements live inline; do
    gcc -std=c11 -O1 -g "${warnings[@]}" -fsanitize=address,undefined -fno-sanitize-recover=all -o "$out/$test-sanitized" \
        "tests/c/$test.c" "$lib"
    "$out/$test-sanitized"
done

echo "C interface: all passed"
