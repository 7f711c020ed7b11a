"""Words of memory, and the atomic steps that the code of a lock makes on them.

The code of a call is a generator. It yields a step, and receives the answer of the step: the value
that it found, or whether a compare-and-swap wrote. A step names its word, with the thread if the
word is in a thread's record. A section of a monitor acts on all words.
"""
from functools import cache
from typing import Callable, NamedTuple

WAITS = object()  # the answer of a failed poll, which is due again


class Words(dict):
    """Words by name. Their values are modulo 2^B."""

    def __init__(self, values, bits):
        super().__init__(values)
        self.bits, self.most = bits, (1 << bits) - 1

    def put(self, word, value):
        """Writes a value, and returns the old one."""
        found = self[word]
        self[word] = value & self.most
        return found

    def copy(self):
        return Words(self, self.bits)


class Step(NamedTuple):
    kind: str
    word: object  # None for a section
    make: Callable  # changes the words, and returns the answer
    is_place_in_line: bool = False


@cache
def read(word):
    return Step("read", word, lambda words: words[word])


def poll(word, is_awaited):
    """A read that is repeated until it finds what is awaited."""
    def make(words):
        found = words[word]
        return found if is_awaited(found) else WAITS
    return Step("read", word, make)


@cache
def write(word, value):
    return Step("write", word, lambda words: words.put(word, value))


@cache
def swap(word, value):
    return Step("swap", word, lambda words: words.put(word, value))


@cache
def add(word, number):
    return Step("add", word, lambda words: words.put(word, words[word] + number))


@cache
def cas(word, expected, value):
    """A compare-and-swap. It answers whether it wrote."""
    def make(words):
        is_expected = words[word] == expected
        if is_expected:
            words.put(word, value)
        return is_expected
    return Step("cas", word, make)


@cache
def section(change, when=None):
    """All that a thread does from getting a monitor to leaving it, or to waiting in it."""
    def make(words):
        return change(words) if when(words) else WAITS
    return Step("section", None, make if when else change)


@cache
def in_line(step):
    """The step by which a thread gets its place in the queue."""
    return step._replace(is_place_in_line=True)
