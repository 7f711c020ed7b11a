"""Checks that a document names only existing links, files, targets of `make` and names of sources.

A name in backticks that looks like a file has to be one; a word in capitals stands for any part of
it. In `A::b` the name `b` has to be public in `A` (public_names.py). A word with an underscore, or
with a capital inside, has to be defined in some source. Any other word has to be somewhere in a
source or in an example.
"""
import fnmatch
import os
import re

from document_blocks import without_blocks
from public_names import public_names

SKIPPED = {".git", "out", "target", "node_modules", "__pycache__"}
TEXTS = (".rt", ".rattle", ".rs", ".antt", ".py", ".js", ".mjs", ".c", ".h", ".sh", ".html",
         ".css", ".schedule", ".report", ".txt", "Makefile", "control")
FILE = re.compile(r"[\w./*-]+\.(md|py|rt|rattle|antt|sh|c|h|js|mjs|html|schedule|report|txt|edit|"
                  r"patch|png|log|trace)")
# Patterns of a definition: in Rattle, in its specifications, and in the other languages.
DEFINED = [re.compile(pattern, re.MULTILINE) for pattern in (
    r"^\s*(?:export )?(?:pub(?:\(\w+\))? )?(?:unsafe )?(?:extern \"C\" )?"
    r"(?:fn|struct|enum|trait|type|mod|const|static|class|function|let) (?:mut )?(\w+)",
    r"^(?:pub |pub\(\w+\) )?(?:abbrev|unfoldable|record|data|mod)(?: pub)? ([\w'-]+)",
    r"^(?:pub )?([\w'-]+) :",
    r"^\s*(?:def|class) (\w+)",
    r"^(\w+) *:?=",
    r"^mutant: (\w+)$",
    r"#\s*(?:define|ifdef|ifndef) (\w+)",
    r"^\s+(?:pub )?(\w+)\s*:[^:]",
    r"^\s+([A-Z]\w*)(?:\(|,| \{|$)",
    r"^[\w ]+?\**(\w+)\(",
)]
# Names from outside the repository: from the kit, the C library and other programs.
OUTSIDE = set("""
    ArrayVec AllocError BufWriter Vec String Mutex Global Display SIGPIPE WebAssembly include_str
    include_bytes thiserror arrayvec atomic_table memchr itoa clap fetch_and_store qnode QNode
    fetch_and_increment memory_order_seq_cst compare_exchange_weak try_acquire sched_yield pthread
    futex parallel ssh rsync hosts Host Exitval RT_JOBS SimpleReadWriteLock FifoReadWriteLock
    mkdir libck tas
""".split())
# Files that the commands of a document write, or a build.
WRITTEN = (
    "logs/*", "ordered/*", "run.html", "jobs.log", "hosts.log", "run.trace",
    "run.schedule", "*.example", "*/out/*", "/dev/*", "{}*",
    "examples/fault-too-*", "*.c",
)


def files_of(top):
    """Each file and folder of the repository, by its path from the top."""
    for folder, folders, files in os.walk(top):
        folders[:] = [name for name in folders if name not in SKIPPED]
        base = os.path.relpath(folder, top)
        for name in folders + files:
            yield os.path.normpath(os.path.join(base, name))


def slug(title):
    """The anchor of a heading."""
    kept = re.sub(r"[^\w\- ]", "", re.sub(r"[`*]", "", title.lower()))
    return kept.strip().replace(" ", "-")


class Names:
    """Files, targets, and the names of the sources."""

    def __init__(self, top):
        self.top = top
        self.looked_at = 0
        self.files = list(files_of(top))
        self.defined, self.words = set(), set()
        self.public = public_names(top)
        for path in self.files:
            self.words.update(re.findall(r"[\w-]+", path))
            self.defined.add(os.path.splitext(os.path.basename(path))[0])
            is_made = path.startswith("built/")  # of sources, which are read
            if path.endswith(TEXTS) and not is_made and os.path.isfile(top / path):
                self.add_text((top / path).read_text(errors="replace"))
        files = [top / "Makefile", *(top / "packaging").glob("*.mk")]
        make = "\n".join(file.read_text() for file in files)
        self.targets = set(re.findall(r"^([\w-]+)(?: [\w-]+)*:", make, re.MULTILINE))
        self.variables = set(re.findall(r"^(?:ifdef |)(\w+)(?: *:?=|$)", make, re.MULTILINE))

    def add_text(self, text):
        self.words.update(re.findall(r"\w+", text))
        self.words.update(re.findall(r"[\w-]+", text))
        for pattern in DEFINED:
            self.defined.update(pattern.findall(text))

    def is_file(self, name, document):
        """Whether a file has this path from the top or the document, or a path with this end."""
        pattern = re.sub(r"\b[A-Z]{2,}\b|\b[A-Z]\b", "*", name.rstrip("/"))
        pattern = re.sub(r"^(\.\./)+", "", pattern)
        here = os.path.relpath(document.parent, self.top)
        near = (pattern, os.path.normpath(f"{here}/{pattern}"), f"*/{pattern}")
        ways = near if FILE.fullmatch(pattern) else near + tuple(f"{way}.*" for way in near)
        return any(fnmatch.fnmatchcase(path, way) for path in self.files for way in ways) \
            or any(fnmatch.fnmatchcase(name, way) for way in WRITTEN)

    def is_command(self, words):
        """Whether the targets, variables, crate and mutant of a `make` command exist."""
        given = dict(word.split("=", 1) for word in words if "=" in word)
        chosen = {word for word in words if "=" not in word}
        mutant, crate = given.get("MISTAKE", "NAME"), given.get("CRATE", "NAME")
        return (chosen <= self.targets and given.keys() <= self.variables
                and (mutant == "NAME" or mutant in self.defined)
                and (crate == "NAME" or f"crates/{crate}" in self.files))

    def is_path(self, name):
        """Whether each name of `A::b` or `A::{b, c}` is public in the one before it."""
        *owners, last = name.split("::")
        pairs = [*zip(owners, owners[1:]), *((owners[-1], it) for it in re.findall(r"\w+", last))]
        return all(owner in OUTSIDE or it in self.public[owner] for owner, it in pairs)

    def is_there(self, name, document):
        """Whether the name in backticks exists. Text that is no name always passes."""
        words = name.split()
        if any(word.startswith("-D") for word in words):
            return set(re.findall(r"(?:^|\s)-D(\w+)", name)) <= self.words
        if "make" in words[:2]:
            return self.is_command(words[words.index("make") + 1:])
        if "/" in words[0] and re.match(r"[\w./*-]+$", words[0]) or FILE.fullmatch(words[0]):
            return self.is_file(words[0], document)
        if re.fullmatch(r"\w+(::\w+)*::(\w+|\{[\w, ]+\})", name):
            return self.is_path(name)
        if not re.fullmatch(r"[A-Za-z][\w-]*(\(\))?", name):
            return True
        name = name.removesuffix("()")
        if "_" in name or re.search(r"[A-Z].*[a-z][A-Z]", name):
            return name in self.defined | OUTSIDE or name.isupper() and name in self.words
        return name in self.words or name in OUTSIDE

    def link_fault(self, target, document):
        """The fault of a relative link, if it has one."""
        path, _, anchor = target.partition("#")
        file = (document.parent / path).resolve() if path else document
        if not file.exists():
            return f"there is no {target}"
        if anchor and file.suffix == ".md":
            titles = re.findall(r"^#+ (.+)$", file.read_text(), re.MULTILINE)
            if anchor not in map(slug, titles):
                return f"{file.name} has no heading {anchor}"
        return None

    def missing_in(self, document, lines):
        """(line number, fault) for each name or link that leads to nothing."""
        text = "\n".join(line for _, line in without_blocks(lines))
        numbers = [number for number, _ in without_blocks(lines)]
        for match in re.finditer(r"(?<!`)`([^`\n]+)`(?!`)|\]\(([^)\s]+)\)", text):
            number = numbers[text.count("\n", 0, match.start())]
            name, target = match.groups()
            self.looked_at += 1
            if name and not self.is_there(name, document):
                yield number, f"there is no `{name}`"
            if target and "://" not in target and (fault := self.link_fault(target, document)):
                yield number, fault
