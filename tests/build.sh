#!/usr/bin/env bash
# The Makefile, with a stand-in for rt: make lib says how long it takes and prints one line a crate; where a proof fails it shows the
# error and keeps the archive that was there; compare, bench, tool and install build the archive that they need. And the gate: it fails
# where rt fails, where a must-fail edit is bad and where the tests from outside fail, and its last line is rt's, with a failure that rt did
# not see; where packages are missing it does not begin. And the tests from outside, that run side by side: none fails unseen.
set -euo pipefail
cd "$(dirname "$0")/.."
unset MAKEFLAGS # of a make that runs this
from=$PWD
folder=$(mktemp -d)
trap 'rm -rf "$folder"' EXIT
wrong() {
    echo "build: $*" >&2
    cat "$folder/said" >&2
    exit 1
}
mkdir -p "$folder"/tree/crates/{array/src,buffer,ffi} "$folder/bin"
cp -R Makefile VERSION include package bindings tool demo oracle bench "$folder/tree"
printf 'array:\nbuffer: array\nvalid: array\nffi staticlib: array buffer valid\nvectors: array\n' > "$folder/tree/crates.txt"
touch "$folder/tree/crates/array/src/lib.rt"
cat > "$folder/bin/rt" <<'END'
#!/bin/sh
if [ "$*" = ci ]; then
    cat ../ci
    exit "$(cat ../status)"
fi
echo "$* in ${PWD##*/}" >> ../../../asked
echo 'logic /kit/antt-project.json: libraries=16 files=2756 sum=dac8'
echo 'statements core: modules loaded=0 checked=0'
echo 'only=0 proved=0'
echo 'rt: chose --jobs 2 for array'
echo 'fn array::kind::fixed: proved'
echo 'library std: modules loaded=0 checked=0'
echo 'crates/array/proofs/Proof.antt:1:1: note: large solution: a term'
echo 'crate array: modules loaded=0 checked=33'
echo 'logic=proved functions=3 sum=dac8'
if [ -e ../../../fails ]; then
    echo 'rt: chose --jobs 2 for buffer'
    echo 'crates/buffer/src/lib.rt:1:1: error: a fact fails' >&2
    echo 'rattle build: nothing was built, since only a proved crate is built' >&2
    echo 'rt: the library buffer did not build, so nothing above it was checked' >&2
    exit 1
fi
echo 'rt: valid: begins with what a check kept in /elsewhere' >&2
echo 'rt: chose --jobs 2 for valid'
echo 'struct valid::Kind: proved'
echo 'logic=proved functions=2 sum=dac8'
echo 'rt: chose --jobs 2 for ffi'
echo 'axioms libc: none reached of the 128 declared'
echo 'logic=proved functions=15 target=x86_64-unknown-linux-gnu sum=dac8'
mkdir -p out
echo new > out/libffi.a
END
chmod +x "$folder/bin/rt"
mkdir "$folder/tree/tests"
cp -R .ci "$folder/tree"
cat > "$folder/tree/tests/outside.sh" <<'END'
#!/bin/sh
echo outside
exit "$(cat ../outside)"
END
printf '#!/bin/sh\n[ ! -e ../missing ] || { echo clang-14 is missing >&2; exit 1; }\n' > "$folder/tree/tests/packages.sh"
chmod +x "$folder"/tree/tests/*.sh
cd "$folder/tree"
export PATH="$folder/bin:$PATH"
build() { make --no-print-directory "$@" > "$folder/said" 2>&1; }
archive() { cat build/libdurpaxeta.a; }

build lib || wrong 'make lib failed'
diff - "$folder/said" <<'END' || wrong 'make lib says something else'
Proving 4 crates, then building the archive. What is proved already takes seconds.
array proved, 3 left
buffer proved before, 2 left
valid proved, 1 left
ffi proved and built, 0 left
build/libdurpaxeta.a and build/durpaxeta.h are there
END
[ "$(archive)" = new ] && cmp include/durpaxeta.h build/durpaxeta.h || wrong 'make lib built something else'
build lib || wrong 'make lib failed the second time'
[ "$(cat ../asked)" = 'lib in ffi' ] || wrong 'make lib asked for something else, or proved again what had not changed'

echo good > build/libdurpaxeta.a
touch -d '1 minute' crates/array/src/lib.rt
touch ../fails
if build lib; then wrong 'make lib passed over a failed proof'; fi
grep -qx 'crates/buffer/src/lib.rt:1:1: error: a fact fails' "$folder/said" || wrong 'the error is not shown'
if grep -q ' proved before\|^ffi ' "$folder/said"; then wrong 'make lib says that more is proved'; fi
[ "$(archive)" = good ] || wrong 'a failed proof cost the good archive'
rm ../fails

# Nothing is there: each builds the archive.
for target in compare bench tool install demo; do
    rm -rf build crates/ffi/out
    build --dry-run "$target" LISTED=here || wrong "make $target has no rule for what it needs"
    grep -qx 'package/archive.sh' "$folder/said" || wrong "make $target does not build the archive"
done
# A PREFIX that will not do is refused at once, with nothing built.
rm -f ../asked
for target in install uninstall; do
    if build "$target" PREFIX=here; then wrong "make $target takes a PREFIX that is no absolute path"; fi
    grep -qF "PREFIX is an absolute path, not 'here'" "$folder/said" || wrong "make $target does not say what is wrong with PREFIX"
    [ ! -e ../asked ] && [ ! -e build ] || wrong "make $target built before it refused"
done

# The gate: status of rt, of the tests from outside, what rt counts of the edits; the status that is wanted, and what is printed.
gate() {
    printf '%s\n' "$1" > ../status
    printf '%s\n' "$2" > ../outside
    printf '== array\n%s\n9 passed, %s failed\n' "$3" "$1" > ../ci
    local status=0
    make --no-print-directory test > "$folder/said" 2> /dev/null || status=$?
    [ "$((status > 0))" = "$4" ] || wrong "make test ends with $status: rt $1, outside $2, '$3'"
    local failed=$(($1 > 0 ? $1 : $4))
    printf '== array\n%s\n%s9 passed, %s failed\n' "$3" "${5:+$5$'\n'}" "$failed" | diff - "$folder/said" || wrong 'make test says something else'
}
all='every proof and must-fail edit was done in this run'
gate 0 0 "rt: ok; handles allowed: none; must-fail edits: 70 refused; $all" 0 outside
gate 0 0 "rt: ok; handles allowed: none; must-fail edits: 70 refused, 2 of them only by a limit; $all" 0 outside
gate 0 1 "rt: ok; handles allowed: none; must-fail edits: 70 refused; $all" 1 outside
gate 0 0 "rt: ok; handles allowed: none; must-fail edits: 69 refused, 1 bad; $all" 1 ''
gate 0 0 "rt: ok; handles allowed: none; must-fail edits: 68 refused, 2 of them only by a limit, 1 bad; $all" 1 ''
gate 0 0 "rt: ok; handles allowed: none; every proof and must-fail edit was done in this run" 1 ''
gate 1 0 'rt: FAILED: array' 1 ''
gate 2 0 'rt: the disk is full' 1 ''
touch ../missing
if make --no-print-directory test > "$folder/said" 2> /dev/null || [ -s "$folder/said" ]; then wrong 'make test passes over packages that are missing'; fi

# The tests around the archive, each replaced by one that says its name, and fails where that is the one that is to fail.
each=(tests/build.sh tests/documents.sh tests/symbols.sh tests/c/run.sh tests/install.sh tests/readme.sh tests/targets.sh demo/affinity.sh
    bindings/rust/Cargo.toml tool/Cargo.toml)
cat > ../bin/cargo <<'END'
#!/bin/sh
name=$0
case $name in */cargo) for name; do :; done ;; esac
echo "ran $name"
[ "$name" != "$(cat ../fails_outside)" ]
END
chmod +x ../bin/cargo
mkdir -p tests/c build/cargo/release
touch build/cargo/release/durpaxeta
for name in "${each[@]}"; do
    case $name in *.sh) cp ../bin/cargo "$name" ;; esac
done
cp "$from/tests/outside.sh" tests/outside.sh
build lib || wrong 'make lib failed'
for name in none "${each[@]}"; do
    echo "$name" > ../fails_outside
    status=0
    tests/outside.sh --built > "$folder/said" 2>&1 || status=$?
    case $name in
        none)
            [ "$status" = 0 ] || wrong "tests/outside.sh ends with $status where nothing fails"
            for name in "${each[@]}"; do grep -qxF "ran $name" "$folder/said" || wrong "tests/outside.sh does not run $name"; done
            ;;
        *) [ "$status" != 0 ] || wrong "tests/outside.sh passes over a failure of $name" ;;
    esac
done
echo 'make lib, what needs it, make test and the tests around the archive: as it should be'
