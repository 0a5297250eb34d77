#!/usr/bin/env bash
# The make targets of the comparison, the fuzzer and the benchmark, each in a short form, so that none can rot unseen. Every target that a page
# names is here, or another test has it. Needs build/libdurpaxeta.a (make lib), and what packages.sh fetches; targets that compile the listed files
# of zarrs are passed over where their folder is not there, and with --built make fuzz is, where the archive is not what make lib left in crates/.
set -euo pipefail
cd "$(dirname "$0")/.."
unset MAKEFLAGS # of a make that runs this
tests/packages.sh
folder=$(mktemp -d)
trap 'wait; rm -rf "$folder"' EXIT
make() { command make --no-print-directory "$@"; }
wrong() {
    echo "targets: make $*" >&2
    [ ! -s "$said" ] || tail -n 20 "$said" >&2
    exit 1
}

# to_end TARGET SAYS [VARIABLE..]: it ends well, and the pattern is in what it says.
to_end() {
    local target=$1 says=$2
    shift 2
    said=$folder/$target.said
    make "$target" "$@" > "$said" 2>&1 || wrong "$target $* fails"
    grep -qE "$says" "$said" || wrong "$target $* does not say '$says'"
    echo "make $target${*:+ $*}: $(grep -E "$says" "$said" | tail -n 1)"
}
# to_line TARGET SAYS [VARIABLE..]: it comes to that line, and is stopped there, by the number of its group.
to_line() {
    local target=$1 says=$2 running ended=
    shift 2
    said=$folder/$target.said
    setsid make --no-print-directory "$target" "$@" > "$said" 2>&1 &
    running=$!
    until grep -qE "$says" "$said"; do
        [ -z "$ended" ] || wrong "$target $* ends and does not say '$says'"
        kill -0 "$running" 2> /dev/null || ended=yes
        sleep 0.2
    done
    kill -- "-$running" 2> /dev/null || true
    wait "$running" 2> /dev/null || true
    echo "make $target${*:+ $*}: $(grep -m 1 -E "$says" "$said")"
}
# What is made anew is what is there, but for the comments, which may name other versions.
as_it_is() {
    said=$folder/$1.differences
    diff <(grep -v '^#' "oracle/data/$1.txt") <(grep -v '^#' "$folder/$1.txt") > "$said" || wrong "$2 makes another oracle/data/$1.txt"
}

compare() { to_line compare '^10000 requests so far, 0 differences'; }
teeth() { to_end teeth '^1 mistakes, 1 caught' ONLY='depth 5 allowed'; }
differences() {
    to_end differences '^    Rust: '
    [ "$(grep -c '^    judge: ' "$said")" = "$(grep -c '^[^#]' oracle/data/differences.txt)" ] || wrong 'differences does not answer every row'
}
record() {
    to_end record ' .*/answers\.txt$' MADE="$folder"
    as_it_is answers record
}
bench() {
    to_end bench '^`encode_interleaved`, by cells' ROUNDS=1 ONLY=interleaved
    to_end bench '^`generate`, by cells' ROUNDS=1 ONLY=generate
    to_end bench '^`table_preview`, by cells' ROUNDS=1 ONLY=table
}
vectors() {
    to_end vectors '^numcodecs .* reads .* alike, and writes the same bytes' MADE="$folder"
    as_it_is vectors vectors
}
fuzz() { to_end fuzz '^fuzz: nothing was found' SECONDS=20; }
fuzz-teeth() { to_end fuzz-teeth '^seen after ' ONLY='a mask byte over 01 read'; }

# What runs one after the other, and beside the other lists; the first compiles the listed files.
listed='compare teeth differences record bench'
proved='fuzz'
others='fuzz-teeth'
archive='vectors'
pages=(README.md CONTRIBUTING.md BENCHMARKS.md docs/*.md oracle/README.md oracle/data/README.md)
for target in $(grep -ohE '(`|^ {4})make [a-z-]+' "${pages[@]}" | awk '{print $NF}' | sort -u); do
    case " $listed $proved $others $archive demo test lib tool install uninstall " in
        *" $target "*) ;;
        *) said=; wrong "$target is named by a page, and no test runs it" ;;
    esac
done

from=$(make --silent --eval 'from: ; @echo "$(LISTED)"' from)
if [ ! -d "$from" ]; then
    echo "not run, since there is no folder $from with the listed files of zarrs (LISTED names it): $listed"
    listed=
fi
if [ "${1:-}" = --built ] && ! cmp -s crates/ffi/out/libffi.a build/libdurpaxeta.a; then
    echo "not run, since build/libdurpaxeta.a is not what make lib leaves in crates/ffi/out: $proved"
    proved=
fi
make --silent build/oracle/libdurpaxeta.so # of which two lists make use
jobs=()
for list in "$listed" "$proved" "$others" "$archive"; do
    (for target in $list; do "$target"; done) > "$folder/list${#jobs[@]}" 2>&1 &
    jobs+=($!)
done
status=0
for i in "${!jobs[@]}"; do
    wait "${jobs[i]}" || status=$?
    cat "$folder/list$i"
done
exit "$status"
