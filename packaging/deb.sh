#!/bin/sh
# Writes dist/lockreplay_VERSION_amd64.deb, by debian/rules, of what was built.
set -eu
cd "$(dirname "$0")/.."
mkdir -p dist
export DEB_RULES_REQUIRES_ROOT=no
debian/rules clean binary > dist/deb.log 2>&1 || { cat dist/deb.log >&2; exit 1; }
echo "dist/lockreplay_$(cat VERSION)_amd64.deb"
