#!/usr/bin/env python3
"""Checks a trace from Python, by ctypes and bindings written by hand.

    examples/bindings/locktrace.py LIBRARY TRACE

LIBRARY is the check as a shared library, with its folder, as ./liblocktrace.so. It is made once, at
the top of the repository or of the installed documents:

    cc -shared -fPIC -O2 -o liblocktrace.so built/locktrace.c

Status: 0 an accepted trace; 1 a refused one, or a text that is no trace; 2 other words on the
command line than these.

SPDX-License-Identifier: Apache-2.0 OR MIT
"""
import ctypes
import sys

NO_WORD = 0xFFFFFFFF


class Step(ctypes.Structure):
    """A move that was made: `struct lt_step` of built/locktrace.h, which says more."""
    _fields_ = [("line", ctypes.c_uint64), ("found", ctypes.c_uint64), ("left", ctypes.c_uint64),
                ("thread", ctypes.c_uint32), ("action", ctypes.c_uint32),
                ("outcome", ctypes.c_uint32), ("word", ctypes.c_uint32)]


class Answer(ctypes.Structure):
    """What a trace comes to: `struct lt_answer`."""
    _fields_ = [("line", ctypes.c_uint64), ("moves", ctypes.c_uint64),
                ("fault", ctypes.c_uint32), ("threads", ctypes.c_uint32)]


class LockTrace:
    """The library, with the types of its two functions. Threads may use it at the same time."""

    def __init__(self, path):
        self.library = ctypes.CDLL(path)
        self.library.lt_check.restype = ctypes.c_uint32
        self.library.lt_check.argtypes = [
            ctypes.c_char_p, ctypes.c_size_t, ctypes.POINTER(Step), ctypes.c_size_t,
            ctypes.POINTER(Answer)]
        self.library.lt_fault_text.restype = ctypes.c_size_t
        self.library.lt_fault_text.argtypes = [ctypes.c_uint32, ctypes.c_char_p, ctypes.c_size_t]

    def check(self, text):
        """Returns the answer for a text, and the moves that were made."""
        # the shortest move has six bytes with its line feed
        steps, answer = (Step * (len(text) // 6 + 1))(), Answer()
        self.library.lt_check(text, len(text), steps, len(steps), ctypes.byref(answer))
        return answer, steps[:answer.moves]

    def fault_text(self, fault):
        text = ctypes.create_string_buffer(128)
        length = self.library.lt_fault_text(fault, text, len(text))
        return text.raw[:length].decode()


def main(library, trace):
    locktrace = LockTrace(library)
    with open(trace, "rb") as file:
        answer, steps = locktrace.check(file.read())
    if answer.fault:
        print(f"{trace}:{answer.line}: {locktrace.fault_text(answer.fault)}")
        return 1
    waits = sum(step.outcome == 2 for step in steps)
    print(f"{trace}: {len(steps)} moves of {answer.threads} threads, {waits} waits")
    return 0


if __name__ == "__main__":
    if len(sys.argv) != 3:
        print(__doc__, file=sys.stderr)
        sys.exit(2)
    sys.exit(main(*sys.argv[1:]))
