#!/usr/bin/env bash
# Builds the page's module, crates/lk_page/out/lockreplay.wasm: the static library lk_page, proved,
# compiled for WebAssembly with 64-bit memory, and linked.
#
# The gate proves lk_page and builds nothing of it. What is not proved is not built here either.
# If nothing changed since the last time it takes seconds. The module is the same byte for byte
# in any folder. If BUILT is set, the libraries below lk_page are taken as they are in `out`.
set -euo pipefail
cd "$(dirname "${BASH_SOURCE[0]}")/.."
readonly TARGET=wasm64-unknown-unknown
# how many processors the checks may take
export JOBS=${JOBS:-$(nproc)}

kit=$(dirname "$(rt doc)")
for crate in lk_replay lk_search; do
    [ -n "${BUILT-}" ] || (cd "crates/$crate" && rt lib --jobs "$JOBS")
done
tests/prover/static_library.py lk_page "$TARGET" out/liblk_page_wasm.a
cd crates/lk_page/out
"$kit/bin/rattle-link" --target "$TARGET" --toolchain "$kit/toolchain" \
    -o lockreplay.wasm liblk_page_wasm.a
