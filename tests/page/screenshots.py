#!/usr/bin/python3
"""Takes the picture of the guide (`make pictures`): docs/pictures/hall.png, below 200 KB."""
import shutil
import subprocess
import sys
from pathlib import Path

sys.path.insert(0, str(Path(__file__).resolve().parents[1]))
from bidi import chromium  # noqa: E402
from tab import Tab  # noqa: E402
from tree import TOP  # noqa: E402

PICTURES = TOP / "docs" / "pictures"
MOST_BYTES = 200_000
# pngquant reduces the colours, which a flat picture does not need.
SHRINK = ["pngquant", "--force", "--strip", "--speed", "1", "--output"]
# The name of a picture, the fragment of the page, and the keys to press before.
SHOTS = [("hall", "#lesson=mcs-late-link&move=9&hall", "a")]


def take(page, name, fragment, keys):
    path = PICTURES / f"{name}.png"
    page.open(fragment)
    page.press(*keys)
    page.js("blur")
    path.write_bytes(page.picture())
    if shutil.which("pngquant"):
        subprocess.run([*SHRINK, path, "128", path], check=False)
    assert path.stat().st_size < MOST_BYTES, (name, path.stat().st_size)


def main():
    PICTURES.mkdir(exist_ok=True)
    with chromium({}) as browser:
        page = Tab(browser, "")
        for shot in SHOTS:
            take(page, *shot)


if __name__ == "__main__":
    main()
