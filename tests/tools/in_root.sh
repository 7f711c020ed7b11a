#!/usr/bin/env bash
# Runs a command in a root that tests/tools/root.sh made, with this machine's /dev and network.
#
#     tests/tools/in_root.sh [--see PATH]... FOLDER COMMAND...
#
# The command sees each PATH at its place, and cannot write there. It begins in / with an
# environment of its own. Its mounts and processes are in namespaces that end with the command, so
# none of them remains. The script ends with the status of the command. Only root may run it.
set -euo pipefail
readonly KEPT=${XDG_CACHE_HOME:-$HOME/.cache}/lockreplay/packages
seen=()
while [ "${1-}" = --see ]; do
    seen+=("$(readlink -f "$2")")
    shift 2
done
if [ $# -lt 2 ]; then
    echo "usage: tests/tools/in_root.sh [--see PATH]... FOLDER COMMAND..." >&2
    exit 2
fi
if [ "$(id -u)" != 0 ]; then
    echo "in_root.sh: only root may run a command in a Debian root" >&2
    exit 1
fi
folder=$(readlink -f "$1")
shift

# Enters the root and runs the command. This runs inside the namespaces.
enter() {
    local root=$1 count=$2
    shift 2
    # The root has to be a mount: unshare needs that if the command makes another root inside it.
    mount --bind "$root" "$root"
    mount -t proc proc "$root/proc"
    mount --rbind /dev "$root/dev"
    for path in "${@:1:count}"; do
        mkdir -p "$root$path"
        mount --bind "$path" "$root$path"
        mount -o remount,bind,ro "$root$path"
    done
    shift "$count"
    exec chroot "$root" /usr/bin/env -i HOME=/root LANG=C.UTF-8 \
        PATH=/usr/local/bin:/usr/bin:/bin:/usr/sbin:/sbin "$@"
}

keep_packages() {
    mkdir -p "$KEPT"
    find "$folder/var/cache/apt/archives" -maxdepth 1 -name '*.deb' \
        -exec cp --no-clobber --target-directory="$KEPT" {} + || true
}
trap keep_packages EXIT

# A signal that ends this script ends the command too.
setpriv --pdeathsig KILL unshare --mount --pid --fork --kill-child -- \
    bash -euc "$(declare -f enter); enter \"\$@\"" in_root "$folder" "${#seen[@]}" "${seen[@]}" "$@"
