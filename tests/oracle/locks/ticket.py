"""The ticket lock, after Mellor-Crummey and Scott, ACM TOCS 9(1), 1991, section 2.2.

Different here: a release is a read and a write, and tickets wrap.
"""
from locks.lock import Lock
from locks.steps import add, in_line, poll, read, write


def acquire(me):
    ticket = yield in_line(add("next_ticket", 1))
    yield poll("now_serving", lambda served: served == ticket)


def release(me):
    served = yield read("now_serving")
    yield write("now_serving", served + 1)


PHASES = {"acquire": ["TakeTicket", "AwaitTurn", "TicketInside"],
          "release": ["ReadServing", "PassOn"]}
CHANGES = [
    "TakeTicket, if its write is left out",
    "TakeTicket, if it is a load and then a store",
    "AwaitTurn, if it finds the thread's own, whatever is there",
    "ReadServing, if it finds the thread's own, whatever is there",
    "PassOn, if its write is left out",
]
LOCK = Lock("ticket", (acquire, release), {"add", "read", "write"},
            words=("next_ticket", "now_serving"), is_holder_in_line=True,
            phases=PHASES, changes=CHANGES,
            kept={"AwaitTurn": 0, "PassOn": 0}, recalled=("TicketInside", "ReadServing"))
