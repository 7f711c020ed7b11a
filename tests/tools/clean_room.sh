#!/usr/bin/env bash
# Runs the README's two commands on a clean machine: tests/tools/clean_room.sh [--prove]
#
# The machine is a minimal Debian 12 with make, git, Python 3 and ca-certificates, which sees the
# kit and has the committed tree. The script runs, with all set-up:
#
#   - `make demo`, with nothing built;
#   - `make programs` over the kept proofs of this tree, which links the programs anew;
#   - the first step of `make test`, which installs the Debian packages that its tests need;
#   - each part of `make test` after the proofs.
#
# `rt check` keeps proofs, and `make test` does not. The script ends with 2 if the kept proofs of a
# library are missing. With --prove it copies no proofs, so the machine proves all that these steps
# need, which takes an hour. It does not make the proofs of `make test` itself. The first step that
# fails ends the script. Only the archives of tests/tools/root.sh stay. Only root may run it.
set -euo pipefail
cd "$(dirname "$0")/../.."
readonly TREE=/root/lockreplay
case $* in
'' | --prove) prove=$* ;;
*) echo "usage: tests/tools/clean_room.sh [--prove]" >&2 && exit 2 ;;
esac

# without_proofs: the libraries of crates.txt that have no kept proofs
without_proofs() {
    for name in $(sed 's/^[^:]*://' crates.txt | tr ' ' '\n' | sort -u); do
        [ ! -d "crates/$name" ] || [ -e "crates/$name/out/rlib/stamp" ] || echo "$name"
    done
}

lacking=$([ -n "$prove" ] || without_proofs | xargs)
if [ -n "$lacking" ]; then
    echo "clean_room.sh: no proofs are kept of $lacking: run \`rt check\` in the folder of each" \
        "crate first, or \`make clean-room PROVE=1\`, which proves all in the room" >&2
    exit 2
fi
guide=$(rt doc)
kit=$(readlink -f "$(dirname "$guide")")
room=$(TMPDIR=${TMPDIR:-/var/tmp} mktemp -d) # it takes gigabytes, and /tmp may be memory
readonly root=$room/root table=$room/table
child=
: > "$table"

end() {
    status=$?
    [ -z "$child" ] || kill "$child" 2> /dev/null || true
    wait
    printf '\nSeconds  What was run in a clean Debian 12\n'
    cat "$table"
    [ "$status" = 0 ] || echo "clean_room.sh: it failed" >&2
    rm -rf "$room" || { sleep 2 && rm -rf "$room"; }
}
trap end EXIT

# in_room WORD...: runs a command in the tree in the room
in_room() {
    local status=0
    tests/tools/in_root.sh --see "$kit" "$root" env --chdir="$TREE" "$@" &
    child=$!
    wait "$child" || status=$?
    child=
    return "$status"
}

# step NAME COMMAND...: runs a command here, and notes how long it took
step() {
    local from=$SECONDS
    echo "== $1"
    printf '%7s  %s\n' failed "$1" >> "$table"
    "${@:2}"
    sed -i '$d' "$table"
    printf '%7d  %s\n' $((SECONDS - from)) "$1" >> "$table"
}

make_room() {
    tests/tools/root.sh bookworm "$root" make git python3 ca-certificates
    echo 127.0.0.1 localhost > "$root/etc/hosts" # as an installed Debian has, for chromedriver
    ln -s "$kit/bin/rt" "$root/usr/local/bin/rt"
    git clone --quiet . "$root$TREE"
}

copy_kept_proofs() {
    for out in crates/*/out; do
        cp -a "$out" "$root$TREE/$out"
    done
    rm -f "$root$TREE"/crates/{lockreplay/out/lockreplay,locktrace/out/locktrace}
}

demo() {
    in_room make demo > "$room/demo"
    cat "$room/demo"
    diff crates/lockreplay/stdout "$room/demo"
}

step "a minimal root, with the committed tree" make_room
step "make demo, with nothing built" demo
[ -n "$prove" ] || step "a copy of the kept proofs" copy_kept_proofs
step "make programs" in_room make programs
step "what make test needs of Debian" in_room make test-needs
for name in $(make --silent test-parts); do
    step "make $name" in_room make "$name"
done
