#!/usr/bin/env bash
# Tests with random inputs for a long time: tests/tools/soak.sh SECONDS
#
# The script first makes the long runs once, with new random texts, orders and values each time.
# Then it runs the fuzzer for the rest of the time, at least a minute. The first failure ends all.
set -euo pipefail
cd "$(dirname "$0")/../.."
seconds=${1:?usage: tests/tools/soak.sh SECONDS}
begun=$SECONDS

# bash reads the whole function before it runs, so an edit of this file changes no run.
soak() {
    make --no-print-directory test-programs
    /usr/bin/python3 -m pytest tests/page/test_random_texts.py
    left=$((seconds - (SECONDS - begun)))
    left=$((left > 60 ? left : 60))
    /usr/bin/python3 -m pytest tests/lockreplay/test_fuzz.py --fuzz-seconds $left
}

soak; exit
