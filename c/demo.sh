#!/bin/sh
# Replays a stored schedule with a C compiler, and nothing else: c/demo.sh
#
# It compiles built/lockreplay.c into a temporary folder. If no compiler works, root's run installs
# Debian's gcc and says so; another user gets the command. Standard output has the report alone.
set -eu
cd "$(dirname "$0")/.."
folder=$(mktemp -d)
trap 'rm -rf "$folder"' EXIT
packages='gcc libc6-dev'

# Whether a compiler is there, with the headers of the C library
is_compiler_there() {
    echo '#include <pthread.h>' | cc -x c -c - -o "$folder/try" 2> "$folder/said"
}

# shellcheck disable=SC2086 # a list of words
install() {
    echo "demo.sh: installs $packages" >&2
    export DEBIAN_FRONTEND=noninteractive
    { apt-get update && apt-get --no-install-recommends --yes install $packages; } \
        > "$folder/said" 2>&1 || { cat "$folder/said" >&2 && exit 1; }
}

if ! is_compiler_there; then
    [ "$(id -u)" = 0 ] || {
        echo "demo.sh: no C compiler works here. As root: apt-get install $packages" >&2
        exit 1
    }
    install
fi
cc -O2 -pthread built/lockreplay.c -o "$folder/lockreplay"
"$folder/lockreplay" replay < crates/lockreplay/stdin
echo 'What ran is proved code, translated to C; the translation is not proved.' >&2
