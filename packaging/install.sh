#!/bin/sh
# Puts what is installed below a folder, or takes it away again.
#
#   packaging/install.sh install FOLDER
#   packaging/install.sh uninstall FOLDER
#
# FOLDER is DESTDIR and PREFIX together. ZSH is where below it zsh's completions go. Nothing is
# installed if a part is missing. The folder of documents is taken away whole; other folders stay,
# since others may use them.
set -eu
cd "$(dirname "$0")/.."
umask 022
ZSH=${ZSH:-share/zsh/site-functions} DOC=share/doc/lockreplay
COMPLETIONS=packaging/completions
PROGRAMS='crates/lockreplay/out/lockreplay crates/locktrace/out/locktrace'
HEADERS='built/lockreplay_record.h built/locktrace.h'
PAGES='packaging/man/lockreplay.1 packaging/man/locktrace.1 packaging/man/lockreplay-schedule.5
    packaging/man/locktrace-trace.5'
# the crates that a program in Rattle uses
LIBRARY='crates/lk_words crates/lk_locks crates/lk_lines crates/lk_replay crates/lk_workers
    crates/surface/src crates/README.md crates/ADDING_A_LOCK.md
    crates/lockreplay/README.md'
SCRIPTS='examples/limits.sh examples/recording/conform.sh examples/bindings/locktrace.py'
# What is copied into DOC with the folders that it is in, but for lists of modules that are empty
# shellcheck disable=SC2086 # LIBRARY is a list of words
DOCUMENTS="README.md CHANGELOG.md CONTRIBUTING.md SECURITY.md CODE_OF_CONDUCT.md CITATION.cff
    VERSION LICENSE-APACHE LICENSE-MIT THIRD-PARTY HANDLES crates.txt
    built/lockreplay.html page/lockreplay.html built/lockreplay.c built/locktrace.c $HEADERS
    $(find crates/*/specs $LIBRARY docs/*.md docs/pictures examples/*.md examples/*.schedule \
    examples/*.report examples/*.json examples/recording/*.md examples/recording/*.[ch] \
    examples/bindings/*.c \
    record/rust/Cargo.* record/rust/build.rs record/rust/README.md record/rust/src \
    record/rust/examples \
    -name out -prune -o -name mutants.txt -o -type f -size +0 -print | sort --unique)"

# put MODE PLACE FILE...: copies files to a place, or removes them there
put() {
    mode=$1 place=$folder/$2
    shift 2
    case $do in
    install) mkdir -p "$place" && install -m "$mode" -t "$place" "$@" ;;
    *) for file; do rm -f "$place/${file##*/}"; done ;;
    esac
}

# fill FILE PLACE: copies a file with the version, and with the way up from PLACE, or removes it
fill() {
    [ "$do" = install ] || { rm -f "$folder/$2" && return; }
    mkdir -p "$(dirname "$folder/$2")"
    up=$(dirname "$2" | sed 's|[^/]*|..|g')
    sed "s|@VERSION@|$(cat VERSION)|g; s|@UP@|$up|g" "$1" > "$folder/$2"
    chmod 644 "$folder/$2"
}

# A build that was cut off leaves an empty file, which counts as missing.
look_at() {
    for part in $PROGRAMS $HEADERS $PAGES $SCRIPTS $DOCUMENTS; do
        [ -s "$part" ] || { echo "install.sh: there is no $part" >&2 && exit 1; }
    done
}

# shellcheck disable=SC2086 # each of these lists is of words
each_file() {
    put 755 bin $PROGRAMS
    put 644 include $HEADERS
    fill packaging/pkgconfig/lockreplay-record.pc share/pkgconfig/lockreplay-record.pc
    for page in $PAGES; do fill "$page" "share/man/man${page##*.}/${page##*/}"; done
    for program in lockreplay locktrace; do
        fill $COMPLETIONS/$program.bash share/bash-completion/completions/$program
        fill $COMPLETIONS/$program.zsh "$ZSH/_$program"
        fill $COMPLETIONS/$program.fish share/fish/vendor_completions.d/$program.fish
    done
    for file in $SCRIPTS; do put 755 "$DOC/$(dirname "$file")" "$file"; done
    for file in $DOCUMENTS; do put 644 "$DOC/$(dirname "$file")" "$file"; done
}

[ $# = 2 ] || set -- usage
do=$1 folder=${2-}
case $do in
install) look_at && each_file ;;
uninstall) each_file && rm -rf "${folder:?}/$DOC" ;;
*) sed -n '4,5s/^# *//p' "$0" >&2 && exit 2 ;;
esac
