#!/usr/bin/env bash
# Proves all crates from nothing, and makes the stored runs: tests/tools/gate.sh
#
# `rt ci` deletes what is built in `out`, and in the end puts the libraries of earlier checks back,
# over those that it proved. So all that waits in another folder. If `rt ci` fails, it comes back.
# If it passes, it is deleted.
set -euo pipefail
shopt -s nullglob
cd "$(dirname "$0")/../.."
# Copies of crates take gigabytes, and in Debian 13 /tmp is memory.
export TMPDIR=${TMPDIR:-/var/tmp}

# move FROM TO: moves what is in a folder, but for `incremental`, which `rt ci` itself puts back
move() {
    mkdir -p "$1" "$2"
    find "$1" -mindepth 1 -maxdepth 1 ! -name incremental -exec mv --target-directory="$2" {} +
}

give_back() {
    for old in "$kept"/crates/*/out; do
        out=${old#"$kept/"}
        move "$out" "$kept/failed/$out"
        move "$old" "$out"
    done
    rm -r "$kept"
}

exec 9< crates.txt
flock 9 # until another gate has ended
kept=$(mktemp -d -t gate-XXXXXX)
trap give_back EXIT
for out in crates/*/out; do
    move "$out" "$kept/$out"
done
rt ci
trap - EXIT
rm -r "$kept"
