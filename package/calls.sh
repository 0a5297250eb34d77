#!/usr/bin/env bash
# The calls that the archive exports, by name, in the order of the header, which declares each as uint32_t dpx_...( at the begin of a line.
set -euo pipefail
cd "$(dirname "$0")/.."
sed -nE 's/^uint32_t (dpx_[a-z_]+)\(.*/\1/p' include/durpaxeta.h
