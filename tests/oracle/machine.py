"""A lock in use: its words, the pending call of each thread, the holders and the queue.

The words alone decide how a call goes on, by the code in locks/. The outcomes of calls update the
holders and the queue. The two have to agree whenever a thread enters: the thread is the head of the
queue, if there is one, and it is alone inside or all threads inside are readers. Otherwise the
machine raises `AssertionError`.
"""
from typing import NamedTuple

from locks import LOCKS
from locks.lock import CALLS, HOLDING, TAKING
from locks.steps import WAITS, Words


class Made(NamedTuple):
    """A step that a thread has made. A section acts on all words, so it names none."""
    kind: str
    word: object
    found: int  # the word's value before the step
    left: int  # the value after it
    outcome: str


class Machine:
    def __init__(self, name, threads, bits=64):
        self.lock = LOCKS[name]
        self.threads = threads
        self.words = Words(dict.fromkeys(self.lock.all_words(threads), 0), bits)
        self.call = [None] * threads  # the word of the pending call
        self.step = [None] * threads  # the step that is due in it
        self.due = [None] * threads  # the kind of that step
        self.answers = [()] * threads  # the answers of its steps so far
        self.code = [None] * threads  # its generator; None in a copy
        self.held = {}  # each holder, and the call by which it holds
        self.queue = []  # oldest first
        self.shown = "hold - queue -"  # holders and queue in a report; None after they changed

    def copy(self):
        """A copy of the state. Python copies no generators, so `_start_code` makes them again."""
        other = Machine.__new__(Machine)
        other.lock, other.threads, other.words = self.lock, self.threads, self.words.copy()
        other.call, other.step, other.due = self.call[:], self.step[:], self.due[:]
        other.answers, other.code = self.answers[:], [None] * self.threads
        other.held, other.queue, other.shown = dict(self.held), self.queue[:], self.shown
        return other

    def giving_back(self, thread):
        """The calls by which a holder may give the lock back."""
        return HOLDING[self.held[thread]].ended_by if thread in self.held else ()

    def calls(self, thread):
        """The calls that a thread may begin, if it has no pending call."""
        return self.giving_back(thread) or self.lock.taking

    def refusal(self, thread, word):
        """The reason why a move is refused, or None."""
        if thread >= self.threads:
            return "NoSuchThread"
        due = self.due[thread]
        if word == due:
            return None
        if word not in self.lock.calls and word not in self.lock.steps:
            return "WrongLock"
        if word in CALLS:
            if due is not None:
                return "Busy"
            if word in TAKING:
                return "AlreadyHolds" if thread in self.held else None
            return None if word in self.giving_back(thread) else "NotHolder"
        return "NoCall" if due is None else f"WrongStep next {due}"

    def play(self, thread, word):
        """Makes a move for which there is no refusal, and returns its outcome."""
        step = self.step[thread]
        if step is None:
            self.call[thread] = word
            self._start_code(thread)
            return "called"
        if self.code[thread] is None:
            self._start_code(thread)
        answer = step.make(self.words)
        if answer is WAITS:
            return "waits"
        if step.is_place_in_line:
            self.queue.append(thread)
            self.shown = None
        try:
            step = self.code[thread].send(answer)
        except StopIteration:
            return self._end_call(thread)
        self.step[thread], self.due[thread] = step, step.kind
        self.answers[thread] += (answer,)
        return "moved"

    def make(self, thread):
        """Makes the step that is due, and describes it."""
        kind, word, _, _ = self.step[thread]
        found = self.words.get(word)
        outcome = self.play(thread, kind)
        return Made(kind, word, found, self.words.get(word), outcome)

    def _start_code(self, thread):
        """Makes the generator of the pending call, and brings it to the step that is due."""
        code = self.code[thread] = self.lock.calls[self.call[thread]](thread)
        step = next(code)
        for answer in self.answers[thread]:
            step = code.send(answer)
        self.step[thread], self.due[thread] = step, step.kind

    def _end_call(self, thread):
        call = self.call[thread]
        is_entering = call in HOLDING
        if is_entering:
            self._enter(thread, call)
        else:
            del self.held[thread]
        if thread in self.queue and is_entering != self.lock.is_holder_in_line:
            self.queue.remove(thread)
        self.call[thread] = self.step[thread] = self.due[thread] = self.code[thread] = None
        self.answers[thread] = ()
        self.shown = None
        return "entered" if is_entering else "left"

    def _enter(self, thread, call):
        self.held[thread] = call
        assert not self.queue or self.queue[0] == thread, "another is the head of the queue"
        assert len(self.held) == 1 or self.sign() == HOLDING[call].sign == "r", "another is inside"

    def sign(self):
        """The letter by which a report marks the holders."""
        return HOLDING[next(iter(self.held.values()))].sign if self.held else "-"

    def state(self):
        """Holders and queue, as a report shows them."""
        if self.shown is None:
            holders, queue = ",".join(map(str, sorted(self.held))), ",".join(map(str, self.queue))
            self.shown = f"hold {self.sign()}{holders} queue {queue or '-'}"
        return self.shown
