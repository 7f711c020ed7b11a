#!/usr/bin/env bash
# Installs the missing Debian packages that tests need.
#
#     tests/tools/needs.sh            for `make test`: Build-Depends of debian/control
#     tests/tools/needs.sh release    for `make release-checks`: Depends of debian/tests/control
#
# It names the packages that it installs. If another user than root runs it, it prints the command
# for root, and ends with status 1.
set -euo pipefail
cd "$(dirname "$0")/../.."
export LC_ALL=C DEBIAN_FRONTEND=noninteractive
words=(apt-get --no-install-recommends -o DPkg::Lock::Timeout=300 build-dep ./)
if [ "${1-}" = release ]; then
    words[4]=satisfy
    words[5]=$(sed -n 's/^Depends: @, //p' debian/tests/control)
fi

is_all_there() {
    local said
    said=$("${words[@]}" --simulate 2> /dev/null) && ! grep -q '^Inst ' <<< "$said"
}

! is_all_there || exit 0
if [ "$(id -u)" != 0 ]; then
    echo "needs.sh: Debian packages are missing. As root: ${words[*]@Q}" >&2
    exit 1
fi
exec 9< debian/control
flock 9
apt-get update > /dev/null
new=$("${words[@]}" --simulate | sed -n 's/^Inst \([^ ]*\).*/\1/p' | sort | xargs)
echo "needs.sh: installs $new" >&2
"${words[@]}" --yes > /dev/null
