#!/bin/sh
# Writes a folder with the Rust crate as `cargo package` takes it: packaging/crate.sh FOLDER
#
# The recorder in C, the check's source and the licences are beside the crate's own files there. The
# repository has them elsewhere, for all its parts, and the prover's gate takes no links.
set -eu
cd "$(dirname "$0")/.."
mkdir -p "$1"
cp -R record/rust/. built/lockreplay_record.h built/locktrace.c LICENSE-APACHE LICENSE-MIT "$1"
rm -rf "$1/target"
