# shellcheck shell=sh disable=SC2034
# What the scripts that package share: the version, day and machine of the release, and a folder to
# fill. Read by `. packaging/common.sh` in the top folder; not run by itself.
#
# The same contents have to give the same bytes on every machine. So names are sorted, root owns
# all, and all files have one time: the day that CHANGELOG.md gives the version. git is not asked,
# nor the environment: both differ between a clone, an archive and a container.
umask 022
export LC_ALL=C TZ=UTC0
VERSION=$(cat VERSION)
DAY=$(sed -n "s/^## \[$VERSION\] - \([0-9-]*\)\$/\1/p" CHANGELOG.md)
if [ -z "$DAY" ]; then
    echo "CHANGELOG.md has no line '## [$VERSION] - YEAR-MONTH-DAY'" >&2
    exit 1
fi
SOURCE_DATE_EPOCH=$(date --date="$DAY" +%s)
export SOURCE_DATE_EPOCH
# what `rt` builds for, whatever machine packages it
SYSTEM=linux MACHINE=x86_64
STAGE=$(mktemp -d)
trap 'rm -rf "$STAGE"' EXIT

# dated FOLDER: gives everything in it the time of the release
dated() {
    find "$1" -exec touch --no-dereference --date="@$SOURCE_DATE_EPOCH" {} +
}

# publish FILE: moves a file of STAGE into dist/ whole, since several processes may make it at once
publish() {
    mkdir -p dist
    cp "$STAGE/$1" "dist/$1.$$"
    mv "dist/$1.$$" "dist/$1"
    echo "dist/$1"
}

# packed FOLDER FILE: packs a folder of STAGE, and publishes it. In the format `gnu` headers have
# the same bytes from each version of tar; in `ustar` they do not.
packed() {
    tar --create --directory="$STAGE" --sort=name --format=gnu --owner=root:0 --group=root:0 \
        --mtime="@$SOURCE_DATE_EPOCH" --file="$STAGE/tar" "$1"
    gzip --no-name --best < "$STAGE/tar" > "$STAGE/$2"
    publish "$2"
}
