"""Runs the commands of a document, and says what is wrong with it.

A fenced block that begins with ```console has lines `$ command`, each with its expected output
below; a line `...` stands for any lines. A block ```sh is a script, which has to end with status 0.
Each document has a folder with links to the repository's folders, in which all its blocks run, so a
later block finds the files of an earlier one. A comment above the fence says more:

    <!-- not run: REASON -->    the block cannot be run in a test
    <!-- with: PART -->         it is run if PART is built
    <!-- file: NAME -->         the block is the file NAME, and is saved before the next one is run
    <!-- quoted: FILE -->       the block is lines of the file, one after another
    <!-- beside: LEFT RIGHT --> it is one file, and from column 25 on another, both whole

A block of commands in another language than sh or console is a fault. So is an indented command
without a fence, and a command that leaves the reader in another folder, which `(cd FOLDER && ..)`
does not. document_names.py checks links and names in backticks.
"""
import os
import re
import subprocess

from document_blocks import BadDocument, blocks_of, without_blocks
from tree import BUILT, TOP, environment

SHELLS = {"bash", "shell", "zsh", "fish", "shell-session"}
INDENTED = re.compile(r" {4,}(\$ |(make|rt|gcc|git|awk|sed|node|parallel|python3|pytest) \S|"
                      r"lockreplay (replay|batch) |(tests/\w+|bench)/\w+\.(py|sh)\b)")
LEAVES = re.compile(r"(\$ )?(cd|pushd) ")
SECONDS = 50
RIGHT = 25  # where the second of two files begins that are side by side
END = "status of this command:"


def is_met(due, found):
    """Whether the lines found are those due. A line `...` stands for any lines."""
    pattern = "".join("(?:.*\n)*?" if line == "..." else re.escape(f"{line}\n") for line in due)
    return re.fullmatch(pattern, "".join(f"{line}\n" for line in found)) is not None


class Room:
    """A folder in which the commands of one document run; `ran` counts them."""

    ran = 0

    def __init__(self, folder, program, seconds=SECONDS):
        self.path, self.seconds = folder / "repository", seconds
        tools = folder / "bin"
        out = self.path / "crates" / "lockreplay" / "out"
        for made in (tools, out):
            made.mkdir(parents=True)
        show(TOP, self.path, {".git", "crates"})
        # `find` does not follow links to folders, so `make` sees no source newer than the programs.
        show(TOP / "crates", self.path / "crates", {"lockreplay"})
        show(TOP / "crates" / "lockreplay", out.parent, {"out"})
        (tools / "lockreplay").symlink_to(program)
        if (TOP / BUILT["locktrace"][0]).exists():
            (tools / "locktrace").symlink_to(TOP / BUILT["locktrace"][0])
        (out / "lockreplay").symlink_to(program)
        self.has = {path.name for path in tools.iterdir()}
        self.environment = environment(LC_ALL="C.UTF-8", PATH=f"{tools}:{os.environ['PATH']}")

    def run(self, commands):
        """Runs commands in one shell: the lines that each prints, and its status."""
        ends = "\n".join(f"{it}\n_ended=$?; printf '\\n{END} %d\\n' $_ended; (exit $_ended)"
                         for it in commands)
        script = self.path.parent / "script"
        script.write_text(ends + "\n")
        parts = re.split(rf"\n{END} (\d+)\n", self.printed(script))
        self.ran += len(commands)
        return [(text.splitlines(), int(status)) for text, status in zip(parts[::2], parts[1::2])]

    def printed(self, script):
        """Runs a script in the folder, and returns its output."""
        return subprocess.run(["bash", script], cwd=self.path, env=self.environment, text=True,
                              stdin=subprocess.DEVNULL, stdout=subprocess.PIPE, check=False,
                              stderr=subprocess.STDOUT, timeout=self.seconds,
                              errors="replace").stdout


def show(source, shown, hidden):
    """Puts links to the entries of a folder into another folder."""
    for entry in source.iterdir():
        if entry.name not in hidden:
            (shown / entry.name).symlink_to(entry)


def run_console(block, room):
    """Runs each command of the block, and compares what it prints."""
    due = block.commands()
    found = room.run([command for command, _ in due])
    for (command, lines), answer in zip(due, found + [(["it was not reached"], 1)] * len(due)):
        if not is_met(lines, answer[0]):
            yield f"{command!r} printed {answer[0]}"


def run_script(block, room):
    """Runs the block as one script."""
    [(lines, status)] = room.run(["(set -e\n" + "\n".join(block.lines) + "\n)"])
    if status:
        yield f"the script ended with {status}: {lines[-5:]}"


def is_quote(block):
    return "\n".join(["", *block.lines, ""]) in f"\n{(TOP / block.marks['quoted']).read_text()}"


def columns(block):
    """The lines of a block's two columns."""
    return [[part for part in (line[at].rstrip() for line in block.lines) if part]
            for at in (slice(RIGHT), slice(RIGHT, None))]


def faults_of_block(block, room):
    """Runs or saves a block, and yields its faults."""
    is_run = block.language in ("sh", "console")
    if is_run and any(map(LEAVES.match, block.lines)):
        yield "it leaves the reader in another folder"
    if "quoted" in block.marks and not is_quote(block):
        yield f"it is not in {block.marks['quoted']}"
    if "beside" in block.marks and columns(block) != [
            (TOP / name).read_text().splitlines() for name in block.marks["beside"].split()]:
        yield f"its columns are not {block.marks['beside']}"
    if "file" in block.marks:
        (room.path / block.marks["file"]).write_text("\n".join(block.lines) + "\n")
    elif block.language in SHELLS:
        yield "fence it as sh or console, so that it is run"
    elif is_run and "not run" not in block.marks and (
            block.marks.get("with", "lockreplay") in room.has):
        try:
            yield from (run_console if block.language == "console" else run_script)(block, room)
        except subprocess.TimeoutExpired:
            yield f"no end in {room.seconds} seconds"


def faults_of(document, room, names):
    """The faults of a document, each with the number of its line."""
    lines = document.read_text().splitlines()
    try:
        for block in blocks_of(lines):
            yield from (f"{document}:{block.first}: {it}" for it in faults_of_block(block, room))
    except BadDocument as error:
        yield f"{document}: {error}"
        return
    for number, line in without_blocks(lines):
        if INDENTED.match(line):
            yield f"{document}:{number}: a command that is indented is not run"
    for number, said in names.missing_in(document, lines):
        yield f"{document}:{number}: {said}"
