#!/usr/bin/env bash
# Runs a fuzzer that build.sh has built: run.sh FUZZER SECONDS. It begins with the corpus of this folder and with what earlier runs left in
# build/fuzz/corpus. An input that shows a fault is left in build/fuzz/found; `FUZZER FILE` runs it again.
set -euo pipefail
cd "$(dirname "$0")/../.."
fuzzer=$1
seconds=$2
mkdir -p build/fuzz/corpus build/fuzz/found
echo "fuzzing for $seconds seconds; build/fuzz/log tells how it goes"
if ! FUZZ_REPORT=1 "$fuzzer" -max_len=4096 -max_total_time="$seconds" -artifact_prefix=build/fuzz/found/ \
    build/fuzz/corpus oracle/fuzz/corpus > build/fuzz/log 2>&1; then
    grep -A 1 '^again: ' build/fuzz/log || grep -A 12 'ERROR: ' build/fuzz/log || tail -n 20 build/fuzz/log
    grep 'Test unit written to' build/fuzz/log || true
    echo "fuzz: a fault was found" >&2
    exit 1
fi
sed -n '/^strings written again/,$p' build/fuzz/log
grep -wE 'INITED|DONE' build/fuzz/log
echo "fuzz: nothing was found"
