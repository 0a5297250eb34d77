#!/usr/bin/env bash
# What the tests take of Debian beside a compiler: clang and its fuzzer for make fuzz, numcodecs for make vectors. What is missing is fetched by
# apt-get, if root runs this; else the tests cannot be run, and the last line says what is missing.
set -euo pipefail
cd "$(dirname "$0")/.."
look() {
    missing=()
    oracle/fuzz/build.sh --clang > /dev/null 2>&1 || missing+=(clang-14 libclang-rt-14-dev)
    /usr/bin/python3 -c 'import numcodecs' 2> /dev/null || missing+=(python3-numcodecs)
    [ "${#missing[@]}" = 0 ]
}
look && exit
why='and only root can fetch them'
if [ "$(id -u)" = 0 ]; then
    echo "fetching Debian's ${missing[*]}"
    log=$(mktemp)
    trap 'rm -f "$log"' EXIT
    export DEBIAN_FRONTEND=noninteractive
    if apt-get update > "$log" 2>&1 && apt-get -o DPkg::Lock::Timeout=300 install --yes --no-install-recommends "${missing[@]}" >> "$log" 2>&1; then
        look && exit
    fi
    tail -n 5 "$log" >&2
    why='and apt-get did not fetch them'
fi
echo "packages: Debian's packages ${missing[*]} are missing, $why; the tests need them" >&2
exit 1
