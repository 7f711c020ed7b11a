#!/bin/sh
# Makes a release in dist/: the source, the tarball, the Debian package and the site, and SHA256SUMS
# of these four. It changes nothing else.
#
#   packaging/release.sh
#
# All parts have to be built, and to be as committed: else it says what is in the way and ends with
# status 1, with nothing made. CONTRIBUTING.md says what comes before and after.
set -eu
cd "$(dirname "$0")/.."
. packaging/common.sh

refuse() {
    echo "no release: $1" >&2
    exit 1
}

# The lines of CHANGELOG.md under [Unreleased].
unreleased() {
    sed -n '/^## \[Unreleased\]/,/^## \[[0-9]/{/^## /d;/./p}' CHANGELOG.md
}

[ -z "$(unreleased)" ] || refuse "CHANGELOG.md has changes under [Unreleased]"
[ -z "$(git status --porcelain)" ] || refuse "what is here is not what is committed"
tests/texts/generate.py --check 2> "$STAGE/differs" || refuse "$(cat "$STAGE/differs")"

SOURCE=lockreplay-$VERSION-source.tar.gz
git -c tar.umask=022 archive --prefix="lockreplay-$VERSION/" HEAD |
    gzip --no-name --best > "$STAGE/$SOURCE"
SOURCE=$(publish "$SOURCE")
TARBALL=$(packaging/dist.sh)
PACKAGE=$(packaging/deb.sh)
SITE=$(packaging/site.sh)
(cd dist && sha256sum "${SOURCE#dist/}" "${TARBALL#dist/}" "${PACKAGE#dist/}" "${SITE#dist/}") \
    > "$STAGE/SHA256SUMS"
publish SHA256SUMS > "$STAGE/published"
cat dist/SHA256SUMS
