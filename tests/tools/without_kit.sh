#!/usr/bin/env bash
# Tests what needs no kit: tests/tools/without_kit.sh [PYTEST-OPTION...]
#
# `built/lockreplay.c` stands in for the program if that is not built. A test whose program only a
# kit builds is skipped. `make test-page` tests the page.
set -euo pipefail
cd "$(dirname "$0")/../.."
program=crates/lockreplay/out/lockreplay
if [ ! -e $program ]; then
    mkdir -p "${program%/*}"
    cc -O2 -pthread built/lockreplay.c -o $program
fi
export WITHOUT_KIT=1
exec /usr/bin/python3 -m pytest -m 'not (root or browser or planted)' --quick --fuzz-seconds 5 \
    "$@" tests/oracle tests/texts tests/lockreplay tests/c tests/record
