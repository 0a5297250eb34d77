#!/usr/bin/env bash
# Everything around the proved code: builds the archive, then tests the C interface (plain, under valgrind, with the
# sanitizers), the Rust wrapper, the command, what is installed, the README's examples and the demonstration; the build itself,
# what the documents name, and the make targets of the comparison, the fuzzer and the benchmark.
# With --built the archive in build/ is taken as it is. Any failure ends the script with a status other than 0.
set -euo pipefail
cd "$(dirname "$0")/.."
export CARGO_TARGET_DIR="$PWD/build/cargo"

say() { printf '\n== %s\n' "$*"; }

if [ "${1:-}" != --built ]; then
    say 'archive and header'
    make --no-print-directory --always-make lib
else
    touch build/libdurpaxeta.a
fi

say 'build'
tests/build.sh

say 'documents'
tests/documents.sh

say 'symbols'
tests/symbols.sh

# The rest runs in parts beside each other, since none needs what another makes. What a part says comes behind, and all end before this does.
rust() {
    say 'Rust wrapper'
    cargo test --offline --locked --quiet --manifest-path bindings/rust/Cargo.toml

    say 'command'
    cargo test --offline --locked --quiet --manifest-path tool/Cargo.toml
}
c() {
    say 'C interface'
    tests/c/run.sh
}
tool() {
    say 'installation'
    tests/install.sh

    say 'examples of the README'
    tests/readme.sh

    say 'demonstration'
    make --no-print-directory tool
    demo/affinity.sh
}
targets() {
    say 'comparison, fuzzer and benchmark'
    tests/targets.sh "$@"
}
parts=(c rust tool targets)
running=()
# Tests by cargo leave links, which rt ci takes nowhere in a checkout.
trap 'wait; rm -rf build/cargo/tmp' EXIT
for part in "${parts[@]}"; do
    (set -e; "$part" "$@") > "build/outside-$part.log" 2>&1 &
    running+=($!)
done
failed=()
for i in "${!parts[@]}"; do
    wait "${running[i]}" || failed+=("${parts[i]}")
    cat "build/outside-${parts[i]}.log"
done
if [ "${#failed[@]}" != 0 ]; then
    echo "outside: failed, see above and build/outside-*.log: ${failed[*]}" >&2
    exit 1
fi

say 'outside: all passed'
