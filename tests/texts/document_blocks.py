"""Finds the fenced blocks of a document and the marks above them, which documents.py explains."""
import re
from dataclasses import dataclass, field

MARK = re.compile(r"<!-- (not run|file|with|quoted|beside): (.+?) -->")
FENCE = re.compile(r"\s*(```+)(\S*)\s*")


class BadDocument(Exception):
    """A fault of a document, and its line."""


@dataclass
class Block:
    """A fenced block: its language, the number of its first line, its marks, its lines."""
    language: str
    first: int
    marks: dict[str, str]
    lines: list[str] = field(default_factory=list)

    def commands(self):
        """Each command with its expected output. A `\\` at the end of a line continues it."""
        found = []
        for line in self.lines:
            if found and found[-1][0].endswith("\\") and not found[-1][1]:
                found[-1] = (f"{found[-1][0]}\n{line}", [])
            elif line.startswith("$ "):
                found.append((line[2:], []))
            elif found:
                found[-1][1].append(line)
            else:
                raise BadDocument(f"line {self.first}: output is above the first command")
        return found


def marks_above(lines, fence):
    """The marks in the lines right above a fence, the line with index `fence`."""
    marks = {}
    while fence > 0 and (mark := MARK.fullmatch(lines[fence - 1].strip())):
        marks[mark.group(1)] = mark.group(2)
        fence -= 1
    return marks


def blocks_of(lines):
    """The blocks of a document in order."""
    block, fence = None, ""
    for number, line in enumerate(lines):
        opens = FENCE.fullmatch(line)
        if block is None and opens:
            fence = opens.group(1)
            block = Block(opens.group(2), number + 2, marks_above(lines, number))
        elif block is not None and line.strip() == fence:
            yield block
            block = None
        elif block is not None:
            block.lines.append(line)
    if block is not None:
        raise BadDocument(f"line {block.first - 1}: this fence is not closed")


def without_blocks(lines):
    """The lines outside fenced blocks, with their numbers from 1."""
    fence = ""
    for number, line in enumerate(lines, 1):
        opens = FENCE.fullmatch(line)
        if fence:
            fence = "" if line.strip() == fence else fence
        elif opens:
            fence = opens.group(1)
        else:
            yield number, line


def saved_files(text):
    """The text of each block that a document saves as a file, by the file's name."""
    blocks = blocks_of(text.splitlines())
    return {block.marks["file"]: "\n".join(block.lines) + "\n" for block in blocks
            if "file" in block.marks}
