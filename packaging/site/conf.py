"""Sphinx's settings for the site (`make site`): the documents of the repository, with the page at
its root, usable from disk.

The table of contents is the index by reader at the end of README.md: each document at its first
place there, and all others at the end. A link to the page leads to the copy at the root, and the
lessons of examples/README.md are such links. The manual pages are in the folder `man`, with a sheet
of their parts. Theme, search and dark mode are Furo's.
"""
import re
import sys
from os.path import normpath
from pathlib import Path
from shutil import copyfile

from pygments.lexers.special import TextLexer

sys.path.insert(0, str(Path(__file__).parent))
from api import calls_of  # noqa: E402
from manuals import html_of, manuals, sheet  # noqa: E402

TOP = Path(__file__).resolve().parents[2]
PAGE = "lockreplay.html"
NORMALIZE = "normalize.css/normalize.css"
# Packages whose scripts or styles the site has
OF_OTHERS = ("furo", "python3-sphinx", "libjs-jquery", "libjs-underscore", "node-normalize.css")
AS_THE_SYSTEM = """@media not print {
  @media (prefers-color-scheme: dark) { body:not([data-theme="light"]) %s }
}
"""

project = "lockreplay"
version = release = (TOP / "VERSION").read_text(encoding="utf-8").strip()
root_doc = "README"
include_patterns = ["*.md", "docs/*.md", "[a-z]*/README.md", "crates/*.md", "crates/*/README.md",
                    "examples/recording/README.md", "page/MODULE.md"]
exclude_patterns = ["crates/*/*/**", "dist", "out"]
extensions = ["myst_parser", "sphinx.ext.githubpages"]
myst_heading_anchors = 4
# A block of Rattle has clauses that Rust does not have.
suppress_warnings = ["misc.highlighting_failure"]

html_theme = "furo"
html_title = f"lockreplay {release}"
html_extra_path = [str(TOP / "built" / PAGE)]
html_copy_source = html_show_copyright = html_show_sphinx = html_use_index = False
# A summary is fetched, and a page from disk may fetch nothing.
html_show_search_summary = False
templates_path = ["."]
html_sidebars = {"**": [*(f"sidebar/{part}.html" for part in ("brand", "search", "scroll-start")),
                        "start.html", "sidebar/navigation.html", "sidebar/scroll-end.html"]}


def contents(documents):
    """The table of contents: a list for each reader."""
    index = (TOP / f"{root_doc}.md").read_text(encoding="utf-8").split("## All documents")[1]
    rows = re.findall(r"^\| (?!You |-)(.+?) \| (.*) \|$", index, re.MULTILINE)
    left = sorted(documents - {root_doc})
    for reader, links in [*rows, ("want all", "".join(f"]({name}.md)" for name in left))]:
        named = [normpath(it) for it in re.findall(r"\]\(([\w./-]+)\.md\b", links)]
        listed = [name for name in dict.fromkeys(named) if name in left]
        left = [name for name in left if name not in listed]
        yield "\n".join(["", "```{toctree}", ":hidden:", f":caption: You {reader}",
                         *(f"/{name}" for name in listed), "```", ""])


def read(app, document, source):
    """The text of a document as it is on the site."""
    text, up = source[0], "../" * document.count("/")
    if document == "examples/README":
        text = re.sub(r"^\| (.+?) \| `([\w-]+)` \|", rf"| [\1](built/{PAGE}#lesson=\2) | `\2` |",
                      text, flags=re.MULTILINE)
    if crate := re.fullmatch(r"crates/(\w+)/README", document):
        text += calls_of(crate[1])
    if document == root_doc:
        text += "".join(contents(app.env.found_docs))
    source[0] = re.sub(rf"\[([^\]]+)\]\([./]*built/{PAGE}(#\S+)?\)",
                       lambda it: f'<a href="{up}{PAGE}{it[2] or ""}">{it[1]}</a>', text)


def other_pages(_):
    """The pages that no document has: the manual pages, and the sheet of their parts."""
    bodies = {name: html_of(text) for name, text in manuals().items()} | {"sheet": sheet()}
    for name, body in bodies.items():
        yield f"man/{name}", {"title": name, "body": body}, "page.html"


def mend(path, change):
    path.write_text(change(path.read_text(encoding="utf-8")), encoding="utf-8")


def finish(app, _):
    """A host shows index.html first. Debian's Furo is mended: it names two parts as no browser
    loads them from disk, by a path of Debian's web server and as a module, and it has lost the rule
    by which the system's choice of dark colours counts.
    """
    site = Path(app.outdir)
    copyfile(site / f"{root_doc}.html", site / "index.html")
    for package in OF_OTHERS:
        copyfile(f"/usr/share/doc/{package}/copyright", site / "_static" / f"{package}.copyright")
    normalize = (Path("/usr/share/javascript") / NORMALIZE).read_text(encoding="utf-8")
    gumshoe = site / "_static" / "scripts" / "gumshoe-patched.js"
    mend(gumshoe.with_name("furo.js"), lambda text: text.replace(
        f'import Gumshoe from "./{gumshoe.name}";', gumshoe.read_text(encoding="utf-8")))
    mend(site / "_static" / "styles" / "furo.css", lambda text: text.replace(
        f"@import url(/javascript/{NORMALIZE});", normalize) + AS_THE_SYSTEM % re.search(
            r'body\[data-theme="dark"\] (\{[^}]*\})', text)[1])


def setup(app):
    # Each block of a lock's code names the lock as its language.
    text = (TOP / "docs" / "LOCKS.md").read_text(encoding="utf-8")
    for language in set(re.findall(r"^```([\w-]+)$", text, re.MULTILINE)) - {"console"}:
        app.add_lexer(language, TextLexer)
    app.connect("source-read", read)
    app.connect("html-collect-pages", other_pages)
    app.connect("build-finished", finish)
