"""Makes the installed and packaged trees once for all tests here, which only root runs."""
import os
import tempfile
from pathlib import Path

import pytest

from installs import LARGE, Tree, make
from recorders import once
from tree import TOP, VERSION, output


def pytest_collection_modifyitems(items):
    for item in items:
        if Path(__file__).parent in item.path.parents:
            item.add_marker(pytest.mark.root)


@pytest.fixture(scope="session", autouse=True)
def only_root():
    if os.geteuid() != 0:
        pytest.fail("only root may run this: it makes Debian roots", pytrace=False)


@pytest.fixture
def large():
    """An empty folder with room for gigabytes."""
    with tempfile.TemporaryDirectory(dir=LARGE) as folder:
        yield Path(folder)


@pytest.fixture(scope="session")
def made(shared):
    """Makes a target of the Makefile once, and returns the file that it writes."""
    def make_once(target):
        name = shared / f"{target}.name"
        once(name, lambda: name.write_text(make(target).splitlines()[-1]))
        assert (TOP / name.read_text()).is_file(), name.read_text()
        return TOP / name.read_text()
    return make_once


@pytest.fixture(scope="session")
def trees(shared, made):
    """The tree of `make install`, and the unpacked trees of the tarball and the package."""
    def fill():
        assert make("install-built", f"DESTDIR={shared}/installed", "PREFIX=/usr/local") == ""
        (shared / "tarball").mkdir(mode=0o755)
        assert output("tar", "-xzf", made("dist"), "-C", shared / "tarball") == ""
        assert output("dpkg-deb", "--extract", made("deb"), shared / "deb") == ""
    once(shared / "filled", fill)
    below = {"installed": "usr/local", "tarball": f"lockreplay-{VERSION}-linux-x86_64",
             "deb": "usr"}
    return {name: Tree(name, shared / name, below[name]) for name in below}


@pytest.fixture(params=["installed", "tarball", "deb"])
def tree(request, trees):
    return trees[request.param]


@pytest.fixture
def installed(trees):
    return trees["installed"].tree
