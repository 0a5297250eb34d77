#!/usr/bin/env bash
# Proves the crates of the archive and builds crates/ffi/out/libffi.a. Prints one line for each crate, and whatever else is no
# mere report of success; all that rt says is in build/rt-lib.log. Its status is rt's.
set -euo pipefail
cd "$(dirname "$0")/.."
# Every crate that ffi reaches, in the order in which rt proves them, and ffi; crates.txt names direct dependencies.
mapfile -t crates < <(awk -F: '/^[a-z]/ {split($1, name, " "); below[name[1]] = $2}
    function reach(name,    list, n, i) {
        if (name in seen || !(name in below)) return
        seen[name]
        n = split(below[name], list, " ")
        for (i = 1; i <= n; i++) reach(list[i])
        print name
    }
    END {reach("ffi")}' crates.txt)
left=${#crates[@]}
echo "Proving $left crates, then building the archive. What is proved already takes seconds."
log=$PWD/build/rt-lib.log
(cd crates/ffi && rt lib) 2>&1 | tee "$log" | {
    now=
    while IFS= read -r line; do
        case $line in
            'rt: chose --jobs '*)
                now=${line##* }
                # what rt passes over is proved, and has not changed since
                while [ "$left" != 1 ] && [ "${crates[-$left]}" != "$now" ]; do
                    left=$((left - 1))
                    echo "${crates[-$left - 1]} proved before, $left left"
                done
                ;;
            'logic=proved '*)
                if [ "$now" != ffi ]; then
                    left=$((left - 1))
                    echo "$now proved, $left left"
                fi
                ;;
            *': proved' | *': begins with what a check kept in '*) ;;
            'logic '* | 'statements '* | 'library '* | 'crate '* | 'axioms '* | 'only='* | 'so far:'* | 'note: '* | *': note: '*) ;;
            *) printf '%s\n' "$line" ;;
        esac
    done
}
echo 'ffi proved and built, 0 left'
