"""Fills places of files that can have no marks: in a comment, and in the crates.

A place is between two texts of its file, of which the first stands there once. Where its lines
break does not count: `rt fmt` lays out the crates.
"""
from typing import NamedTuple

from catalogue import TOP


class Place(NamedTuple):
    path: str
    before: str
    after: str  # "" is the end of the file
    due: str  # the text between the two


def filled(text, place):
    """A file's text with what is due in a place, or None if the file does not have the place."""
    head, *rest = text.split(place.before)
    if len(rest) != 1 or place.after not in rest[0]:
        return None
    end = rest[0].index(place.after) if place.after else len(rest[0])
    there, tail = rest[0][:end], rest[0][end:]
    due = there if there.split() == place.due.split() else place.due
    return "".join((head, place.before, due, tail))


def faults_at(place, is_check):
    """The faults of a place. A check compares it; otherwise it is filled."""
    file = TOP / place.path
    text = file.read_text(encoding="utf-8")
    due = filled(text, place)
    if due is None:
        return [f"{place.path}: no one place between {place.before!r} and {place.after!r}"]
    if due == text:
        return []
    if is_check:
        return [f"{place.path}: it does not say {place.due!r}: run make generate"]
    file.write_text(due, encoding="utf-8")
    return []


def faults(places, is_check):
    return [fault for place in places for fault in faults_at(place, is_check)]
