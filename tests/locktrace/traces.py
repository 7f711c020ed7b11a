"""Traces and logs of two threads that several tests use, with the answers of `locktrace check`."""
import base64

from tree import TOP

PAGE = TOP / "built" / "lockreplay.html"
MADE = ["--page", "made.html", "--from", PAGE]
GOOD = """# Two threads of an MCS lock
lock mcs threads 2

0 acquire
0 write next left 0
0 swap tail found 0 left 1
1 acquire
1 write next left 0
1 swap tail found 1
1 write locked left 1
"""
SCHEDULE = """
lock mcs threads 2

0 acquire
0 write
0 swap
1 acquire
1 write
1 swap
1 write
"""
OTHER = GOOD.replace("1 swap tail found 1", "1 swap tail found 2")
BEFORE = "{0}:7: note: before it: 1 acquire\n{0}:8: note: before it: 1 write next left 0\n"
OTHER_LINE = ("{0}:9: refused: thread 1's swap found 2 in tail; "
              "the published algorithm has 1\n" + BEFORE
              + "{0}:6: note: tail was last written here: thread 0's swap left 1\n"
              "{0}:9: note: held by 0; queue 0\n"
              "{0}:9: help: swap the tail by one atomic operation: a load and a store let two "
              "threads find one value\n")
WRONG = GOOD.replace("1 swap tail found 1", "1 write locked left 1")
WRONG_LINE = ("{0}:9: refused: '1 write', but in the published algorithm thread 1's next step "
              "is 'swap' (WrongStep)\n" + BEFORE
              + "{0}:9: note: held by 0; queue 0\n"
              "{0}:9: help: swap the tail once next is nil, and set locked after the swap\n")
FAULTY = "lock ticket threads 2\n0 aquire\n"
ACTION = "a call (acquire, rlock ..) or a step (read, write, swap, cas, add, section)"
MISSPELT = f"column 3: 'aquire', expected {ACTION}; did you mean 'acquire'?"
FAULTY_LINE = f"{{0}}:2: not a move (BadLine)\n{{0}}:2: note: {MISSPELT}\n"
ABSENT = "absent: No such file or directory (os error 2)\n"
EMPTY = "locktrace: {}: no .trace and no .schedule in it (its folders are not searched)\n"
TEXTS = {"good": GOOD, "other": OTHER, "wrong": WRONG, "faulty": FAULTY}
LOGS = {
    "thread-0.log": "lock ticket threads 2 thread 0\nacquire\nadd next_ticket found 0\n"
                    "read now_serving found 0\nrelease\nread now_serving found 0\n"
                    "write now_serving left 1\ndropped 0\n",
    "thread-1.log": "lock ticket threads 2 thread 1\nacquire\nadd next_ticket found 1\n"
                    "read now_serving found 0\nread now_serving found 1\ndropped 0\n",
}
ROUND = ["acquire", "add", "read", "release", "read", "write"]  # the moves of one thread in a round


def has(text, *parts):
    """Whether a text begins with the first part, and contains the others."""
    return text.startswith(parts[0]) and all(part in text for part in parts)


def page_with(trace):
    """The page with a trace in it, as `check --page` has to write it."""
    empty = '<meta name="trace" content="">'
    before, after = PAGE.read_text().split(empty)
    return f"{before}{empty[:-2]}{base64.b64encode(trace).decode()}{empty[-2:]}{after}"
