"""The site that `make site` writes: its links, anchors, loaded files, search and themes.

The tests read it from disk, like a reader who received the folder.
"""
import re
from html.parser import HTMLParser

import pytest

from installs import make
from recorders import once
from tree import EXAMPLES, TOP, output

# The attributes from which a browser loads files by itself. A reader follows all other links.
LOADING = {("script", "src"), ("img", "src"), ("link", "href"), ("iframe", "src"),
           ("source", "srcset"), ("object", "data")}
CHROMIUM = ("chromium", "--headless", "--no-sandbox", "--disable-gpu", "--virtual-time-budget=9000")
THEMES = """<link rel="stylesheet" href="file://{site}/_static/styles/furo.css"><body><script>
onload = () => document.body.append(...["auto", "dark", "light"].map((theme) => {{
  document.body.dataset.theme = theme;
  return `${{theme}}=${{getComputedStyle(document.body).backgroundColor}};`;
}}));
</script>"""
PLAIN = "const [, file] = process.argv; new vm.Script(fs.readFileSync(file, 'utf8'))"


class Document(HTMLParser):
    """The anchors of a document, and the addresses in its elements."""

    def __init__(self, path):
        super().__init__()
        self.path, self.anchors, self.leads = path, {""}, []
        self.feed(path.read_text(encoding="utf-8"))

    def handle_starttag(self, tag, attrs):
        named = dict(attrs)
        self.anchors |= {named.get("id"), named.get("name")}
        self.leads += [(tag, name, named[name]) for name in ("href", "src", "srcset", "data")
                       if named.get(name)]


@pytest.fixture(scope="session")
def site(shared):
    folder = shared / "site"
    once(folder, lambda: make("site", f"SITE={folder}"))
    return folder


@pytest.fixture(scope="session")
def documents(site):
    """The documents of the site by their paths. The page has tests of its own."""
    paths = set(site.rglob("*.html")) - {site / "lockreplay.html"}
    return {path: Document(path) for path in paths}


def fault_of(document, lead, site, documents):
    """The fault of a link from one document to another, or to the page, if it has one."""
    path, _, anchor = lead.partition("#")
    file = (document.path.parent / path.partition("?")[0]).resolve() if path else document.path
    if not file.is_file() or not file.is_relative_to(site):
        return f"there is no {path}"
    if file == site / "lockreplay.html":
        lesson = re.match(r"lesson=([\w-]+)", anchor)
        is_there = (EXAMPLES / f"{lesson[1]}.schedule").is_file() if lesson else not anchor
        return None if is_there else f"there is no lesson {anchor}"
    is_there = anchor in documents[file].anchors if file in documents else not anchor
    return None if is_there else f"{path} has no {anchor}"


def test_links(site, documents):
    faults = [f"{document.path.relative_to(site)}: {fault}" for document in documents.values()
              for _, _, lead in document.leads if not re.match(r"[a-z]+:", lead)
              if (fault := fault_of(document, lead, site, documents))]
    assert len(documents) > 25 and faults == []


def test_nothing_from_elsewhere(site, documents):
    loaded = [lead for document in documents.values() for tag, name, lead in document.leads
              if (tag, name) in LOADING]
    styles = [path.read_text(encoding="utf-8") for path in site.rglob("*.css")]
    loaded += [path for text in styles for path in re.findall(r"url\(['\"]?([^)'\"]+)", text)]
    loaded += [path for text in styles for path in re.findall(r"@import\s+['\"]([^'\"]+)", text)]
    assert len(loaded) > 100
    assert [it for it in loaded if re.match(r"/|(?!data:)[a-z]+:", it)] == []


def test_one_click(documents, site):
    """Each document leads to the page, the lessons and the plans, and the lessons to the page."""
    due = {site / "lockreplay.html#", site / "examples/README.html#schedules-to-learn-from",
           site / "docs/GUIDE.html#ten-minutes-the-ticket-lock"}
    for path, document in documents.items():
        leads = (f"{path.name}{lead}" if lead[0] == "#" else lead for _, _, lead in document.leads)
        assert due <= {(path.parent / lead).resolve() for lead in leads}, path
    lessons = {lead for _, _, lead in documents[site / "examples" / "README.html"].leads}
    assert "../lockreplay.html#lesson=mcs-late-link" in lessons


def test_manuals(documents, site):
    """Each manual page has its parts as headings, and leads to the others; the sheet has the steps
    of each call, the columns of a report and each refusal."""
    for name, other in (("lockreplay.1", "locktrace.1"), ("locktrace.1", "locktrace-trace.5"),
                        ("lockreplay-schedule.5", "lockreplay.1"),
                        ("locktrace-trace.5", "lockreplay-schedule.5")):
        page = documents[site / "man" / f"{name}.html"]
        assert {"NAME", "DESCRIPTION", "EXAMPLES"} <= page.anchors
        assert f"{other}.html" in {lead for _, _, lead in page.leads}, name
    sheet = documents[site / "man" / "sheet.html"].path.read_text("utf-8")
    shown = re.sub(r"\s+", " ", re.sub(r"<[^>]*>", "", sheet))
    for part in ("K T word outcome hold H queue Q", "NotHolder A release", "mcs, release read;",
                 "1 Some report ends with a refused move"):
        assert part in shown, part


def test_sheet(tmp_path):
    """The sheet is one page of paper."""
    (tmp_path / "sheet.html").write_text(output(TOP / "packaging" / "site" / "manuals.py",
                                                "/dev/stdout"))
    printed = tmp_path / "sheet.pdf"
    output(*CHROMIUM, "--no-pdf-header-footer", f"--print-to-pdf={printed}",
           f"file://{tmp_path}/sheet.html", stderr=None)
    assert re.search(r"^Pages: +1$", output("pdfinfo", printed), re.MULTILINE)


def test_search(site):
    """The search finds the document with a word, and says when none has it, without a server."""
    address = f"file://{site}/search.html?q="
    found = output(*CHROMIUM, "--dump-dom", f"{address}planted", stderr=None)
    assert 'href="docs/RECORDING.html' in found.partition('id="search-results"')[2]
    none = output(*CHROMIUM, "--dump-dom", f"{address}nosuchwordhere", stderr=None)
    assert "did not match any documents" in none


def test_scripts_are_plain(site):
    """No script is a module, which no browser loads from disk. Furo's switches the themes."""
    scripts = sorted(site.rglob("*.js"))
    assert site / "_static" / "scripts" / "furo.js" in scripts
    for script in scripts:
        assert output("node", "--eval", PLAIN, script) == "", script


@pytest.mark.parametrize("system, same", [("0", "dark"), ("1", "light")], ids=["dark", "light"])
def test_themes(site, tmp_path, system, same):
    """Until the reader chooses a theme, the colours are those that the system prefers."""
    (tmp_path / "themes.html").write_text(THEMES.format(site=site))
    shown = output(*CHROMIUM, f"--blink-settings=preferredColorScheme={system}", "--dump-dom",
                   f"file://{tmp_path}/themes.html", stderr=None)
    colours = dict(re.findall(r"(\w+)=(rgb[^;]*);", shown))
    assert colours["auto"] == colours[same] and colours["dark"] != colours["light"]
