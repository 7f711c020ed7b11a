#!/usr/bin/env bash
# Makes a minimal Debian root, which has what dpkg and apt need, and the named packages.
#
#     tests/tools/root.sh SUITE FOLDER [PACKAGE...]
#
# The folder KEPT has an archive of each root, and in_root.sh puts the packages there that a root
# fetched. So a second root takes seconds and fetches little. Delete KEPT to begin anew. Only the
# superuser may run this.
set -euo pipefail
if [ $# -lt 2 ]; then
    echo "usage: tests/tools/root.sh SUITE FOLDER [PACKAGE...]" >&2
    exit 2
fi
if [ "$(id -u)" != 0 ]; then
    echo "root.sh: only root may make a Debian root" >&2
    exit 1
fi
readonly SUITE=$1 FOLDER=$2
shift 2
readonly KEPT=${XDG_CACHE_HOME:-$HOME/.cache}/lockreplay
ARCHIVE=$KEPT/$SUITE${*:+$(printf "+%s" "$@")}.tar
readonly ARCHIVE

mkdir -p "$FOLDER" "$KEPT/packages"
if [ -n "$(ls -A "$FOLDER")" ]; then
    echo "root.sh: $FOLDER is not empty" >&2
    exit 1
fi

# The archive has another name until it is whole, since several scripts may make it at once.
make_archive() {
    local made=$ARCHIVE.$$.tar said=$ARCHIVE.$$.said
    if ! mmdebstrap --variant=minbase ${1:+"--include=$1"} "$SUITE" "$made" 2> "$said"; then
        cat "$said" >&2
        rm -f "$made" "$said"
        return 1
    fi
    rm "$said"
    mv "$made" "$ARCHIVE"
}

[ -e "$ARCHIVE" ] || make_archive "$*"
tar --extract --numeric-owner --xattrs --file="$ARCHIVE" --directory="$FOLDER"
cp "$(readlink -f /etc/resolv.conf)" "$FOLDER/etc/resolv.conf"
find "$KEPT/packages" -name '*.deb' \
    -exec cp --target-directory="$FOLDER/var/cache/apt/archives" {} +
