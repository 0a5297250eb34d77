#!/usr/bin/env bash
# Puts each mistake of mistakes.txt into a copy of the crates, builds it with no proof and runs the fuzzer over it, from an empty corpus and
# for at most so many seconds: does it see the mistake, and when?
#
#   teeth.sh SECONDS [WORD]     WORD: only mistakes with it in their name. CRATES is the folder with the crates, if not this repository's
set -euo pipefail
cd "$(dirname "$0")/../.."
limit=$1
word=${2:-}
from=${CRATES:-.}
work=$(mktemp -d) # outside: rt ci takes no source of another crate in a checkout
trap 'rm -rf "$work"' EXIT
missed=0

try() {
    local name=$1 file=$2 began took what
    rm -rf "$work"/*
    mkdir -p "$work/corpus"
    tar -C "$from" --exclude='crates/*/out' -cf - crates | tar -C "$work" -xf -
    OLD=$3 NEW=$4 awk '
        { text = text $0 "\n" }
        END {
            old = ENVIRON["OLD"]; new = ENVIRON["NEW"]
            gsub(/\\n/, "\n", old); gsub(/\\n/, "\n", new)
            at = index(text, old)
            rest = substr(text, at + length(old))
            if (!at || index(rest, old)) exit 1
            printf "%s%s%s", substr(text, 1, at - 1), new, rest
        }' "$work/crates/${file#crates/}" > "$work/edited" || { echo "$name: the text does not stand once in $file" >&2; exit 1; }
    mv "$work/edited" "$work/crates/${file#crates/}"
    oracle/fuzz/build.sh --unproved "$work" "$work/fuzz" > /dev/null
    began=$(date +%s%N)
    if "$work/fuzz" -max_len=4096 -max_total_time="$limit" -artifact_prefix="$work/" "$work/corpus" > "$work/log" 2>&1; then
        echo "NOT SEEN in $limit s: $name"
        missed=$((missed + 1))
        return
    fi
    took=$((($(date +%s%N) - began) / 100000000))
    what=$(grep -m 1 -oE '^again: .*|AddressSanitizer: [a-z-]+|libFuzzer: [a-z-]+' "$work/log" || tail -n 1 "$work/log")
    what="$what$(grep -m 1 -oE '^(READ|WRITE) of size [0-9]+' "$work/log" | sed 's/^/, /' || true)"
    echo "seen after $((took / 10)).$((took % 10)) s: $name ($what)"
}

while IFS= read -r line; do
    case $line in
        'name: '*) name=${line#name: } ;;
        'file: '*) file=${line#file: } ;;
        'old: '*) old=${line#old: } ;;
        'new:'*)
            new=${line#new:}
            case $name in *"$word"*) try "$name" "$file" "$old" "${new# }" ;; esac
            ;;
    esac
done < oracle/fuzz/mistakes.txt
[ "$missed" = 0 ]
