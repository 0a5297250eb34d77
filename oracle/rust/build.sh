#!/bin/sh
# build.sh LISTED OUT : puts the listed Rust and the stand-ins into one tree and compiles it to four libraries.
#   LISTED  folder of the listed files of zarrs 0.23.14 (src--src--...rs.txt)
#   OUT     folder for the trees and the libraries
# A listed file is copied byte for byte; only its name changes (each "--" becomes "/").
# Libraries: OUT/lib{standin,listed}_{debug,release}.rlib
#   standin  bytes_codec.rs and codec_chain.rs are the one stand-in chain of document 01, item 7
#   listed   bytes_codec.rs and codec_chain.rs are the listed files too
set -eu
listed=$1; out=$2
here=$(CDPATH= cd -- "$(dirname -- "$0")" && pwd)
[ -d "$listed" ] || { echo "no folder $listed: LISTED names the one with the listed files of zarrs" >&2; exit 1; }
A2B=array--codec--array_to_bytes
WHOLE="array--array_bytes_internal $A2B--bytes $A2B--optional--optional_codec
 $A2B--vlen $A2B--vlen--vlen_codec $A2B--vlen--vlen_partial_decoder $A2B--vlen_v2"
CHAIN="$A2B--bytes--bytes_codec $A2B--codec_chain"
mkdir -p "$out"
: > "$out/SHA256"
put() { # put TREE NAME
    to=$1/$(echo "$2" | sed 's/--/\//g').rs
    mkdir -p "$(dirname "$to")"
    cp "$listed/src--src--$2.rs.txt" "$to"
    cmp "$listed/src--src--$2.rs.txt" "$to"
    (cd "$listed" && sha256sum "src--src--$2.rs.txt") >> "$out/SHA256"
}
for chain in standin listed; do
    tree=$out/$chain
    rm -rf "$tree"; mkdir -p "$tree"
    cp -R "$here/stand/." "$tree/"
    for f in $WHOLE; do put "$tree" "$f"; done
    case $chain in
        standin) cp -R "$here/chain_standin/." "$tree/" ;;
        listed) for f in $CHAIN; do put "$tree" "$f"; done ;;
    esac
    # array.rs as a whole needs the whole crate: only the byte conversions, by their first and last line
    awk '/^\/\/\/ Transmute from `&\[u8\]` to `Vec<T>`\.$/ {on=1} /^\/\/\/ Unravel a linearised index/ {on=0} on' \
        "$listed/src--src--array.rs.txt" > "$tree/array_conversions.rs"
    [ "$(grep -c '^pub fn ' "$tree/array_conversions.rs")" = 5 ]
    # debug: not optimised, sums and debug assertions checked, as cargo's debug builds
    rustc --edition 2024 --crate-type rlib --crate-name ${chain}_debug -C opt-level=0 -C debug-assertions=on \
        --out-dir "$out" "$tree/lib.rs"
    rustc --edition 2024 --crate-type rlib --crate-name ${chain}_release -C opt-level=3 \
        --out-dir "$out" "$tree/lib.rs"
done
sort -u -o "$out/SHA256" "$out/SHA256"
cmp "$here/SHA256" "$out/SHA256" # the very text that the figures in the docs are about
