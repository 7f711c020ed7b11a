#!/bin/sh
# Makes page/fonts: the letters of the page, subsets of Debian's DejaVu (fonts-dejavu-core) by its
# fonttools (python3-fonttools, python3-brotli). They have ASCII, German, and the signs that the
# page uses.
set -eu
cd "$(dirname "$0")/../fonts"
letters=U+20-7E,U+A0,U+B7,U+BD,U+C4,U+D6,U+DC,U+DF,U+E4,U+F6,U+FC,U+D7,U+E9
signs=U+2013,U+2018-201A,U+201C-201E,U+2026,U+2039,U+203A,U+2190-2193,U+21E2,U+2212,U+2260
more=U+240D,U+25B8,U+25BC,U+2713,U+2715,U+2717,U+25B6
for face in Sans Sans-Bold Sans-Oblique SansMono SansMono-Bold SansMono-Oblique; do
    /usr/bin/python3 -m fontTools.subset "/usr/share/fonts/truetype/dejavu/DejaVu$face.ttf" \
        --unicodes="$letters,$signs,$more" --flavor=woff2 --no-hinting --desubroutinize \
        --layout-features=kern --output-file="DejaVu$face.woff2"
done
