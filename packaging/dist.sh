#!/bin/sh
# Writes dist/lockreplay-VERSION-SYSTEM-MACHINE.tar.gz: what `make install` installs, in one folder
# that can lie anywhere, or be unpacked over /usr/local by `tar --strip-components=1`.
set -eu
cd "$(dirname "$0")/.."
. packaging/common.sh
NAME=lockreplay-$VERSION-$SYSTEM-$MACHINE
packaging/install.sh install "$STAGE/$NAME"
packed "$NAME" "$NAME.tar.gz"
