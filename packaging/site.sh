#!/bin/sh
# Writes dist/lockreplay-VERSION-site.tar.gz: what `make site` writes, in one folder.
set -eu
cd "$(dirname "$0")/.."
. packaging/common.sh
NAME=lockreplay-$VERSION-site
make --silent site SITE="$STAGE/$NAME" >&2
packed "$NAME" "$NAME.tar.gz"
