#!/bin/sh
# A recorded lock follows every schedule of a folder, and each trace is checked with all its values.
#
#     conform.sh LOCK FOLDER [FLAG...]
#     conform.sh LOCK.rs FOLDER
#
# LOCK is a file of this folder, without `.c`, and the flags are the compiler's. LOCK.rs is an
# example of record/rust, which cargo builds; the program LOCKTRACE of the environment, or locktrace
# on the path, checks its traces. `locktrace tour` writes a folder of schedules. Prints how many of
# them were not followed; the status is 1 if one was not, or a trace is refused.
#
# SPDX-License-Identifier: Apache-2.0 OR MIT
set -eu
[ $# -ge 2 ] || { sed -n 's/^# *\(conform.sh .*\)/usage: \1/p' "$0" >&2 && exit 2; }
lock=$1 schedules=$2
shift 2
here=$(dirname "$0")
work=$(mktemp -d)
trap 'rm -rf "$work"' EXIT

say() {
    echo "conform.sh: $1" >&2
    exit 3
}

follow_in_c() {
    cc -O2 -pthread -DLR_MODE=FOLLOW -DLR_CHECK "$@" "$here/$lock.c" \
        "$here/../../built/locktrace.c" -o "$work/follow"
    "$work/follow" "$schedules" "$work"
}

follow_in_rust() {
    CARGO_TARGET_DIR=${CARGO_TARGET_DIR:-$work/target} cargo run --quiet --release \
        --manifest-path "$here/../../record/rust/Cargo.toml" --example "${lock%.rs}" -- \
        follow "$schedules" "$work/traces"
    "${LOCKTRACE:-locktrace}" check "$work"/traces/*.trace
}

find "$schedules" -name '*.schedule' 2> /dev/null | grep -q . ||
    say "$schedules has no schedules: write some with locktrace tour LOCK THREADS -o FOLDER"
case $lock in
*.rs) follow_in_rust ;;
*) follow_in_c "$@" ;;
esac
