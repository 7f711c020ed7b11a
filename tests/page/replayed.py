"""A replay of a schedule by the oracle: its moves and states, in the words that the page has for
them."""
import re
from typing import NamedTuple

import oracle
from machine import Machine

# The phase of a thread by its call, its due step and the word on which that is.
PHASES = {
    "acquire add next_ticket": "TakeTicket", "acquire read now_serving": "AwaitTurn",
    "release read now_serving": "ReadServing", "release write now_serving": "PassOn",
    "acquire write next": "ClearNext", "acquire swap tail": "SwapTail",
    "acquire write locked": "SetLocked", "acquire write next of another": "LinkTo",
    "acquire read locked": "AwaitGrant", "release read next": "ReadNext",
    "release cas tail": "CasTail", "release write locked of another": "Grant",
    "rlock section": "TryRead", "runlock section": "LeaveRead", "wlock section": "TryWrite",
    "wunlock section": "LeaveWrite", "downgrade section": "TryDowngrade",
}
INSIDE = {"ticket": "TicketInside", "mcs": "McsInside", "r": "Reading", "w": "Writing"}
STANDING = {"": "holds", "r": "reads", "w": "writes"}
# The words that a section looks at before it waits or goes on.
LOOKS_AT = {"TryRead": ["flag"], "AwaitReaders": ["readAcquires", "readReleases"],
            "TryWrite": ["readers", "flag"]}
# The names of words below a mark.
SHORT = {"readers": "read.", "readAcquires": "acq.", "readReleases": "rel."}
# How many of the last moves are in view at least, in a large window.
FEWEST = 10


class Move(NamedTuple):
    thread: int
    word: str
    outcome: str
    phase: str  # before it; a call has the name of the call
    wrote: dict  # the word, its value after the move and before it
    found: object  # the word that a step is on, and its value before it


class Replay:
    """The states and moves of a schedule, with the names that it gives its threads. Its last moves,
    or the fewest of them, are in view."""

    def __init__(self, text, fewest=FEWEST):
        self.fewest = fewest
        lock, threads, bits, moves = oracle.read_schedule(text)
        self.lock, self.threads, self.bits = lock, threads, bits
        self.given = {int(thread): name for thread, name in re.findall(
            r"^#! name (\d+) (.+)$", text.decode("latin-1"), re.MULTILINE)}
        self.asked = set(map(int, re.findall(rb"^#! ask (\d+) ", text, re.MULTILINE)))
        self.machine = Machine(lock, threads, bits)
        self.tickets, self.pred = {}, {}
        self.lanes = list(range(threads))
        self.waiting, self.changed, self.arrows = {}, {}, []
        self.moves, self.states = [], [self.state()]
        for _, thread, word in moves:
            if self.machine.refusal(thread, word):
                self.lanes += [thread] if thread >= threads else []
                break
            self.moves.append(self.make(thread, word))
            self.states.append(self.state())

    def name(self, thread):
        return self.given.get(thread, f"thread {thread}")

    def short(self, thread):
        return self.given.get(thread, f"T{thread}")

    def mark(self, thread):
        """What a disc has: the first letter of a name that no other name begins with, or the
        number."""
        firsts = [name[0].upper() for name in self.given.values()]
        first = self.given.get(thread, " ")[0].upper()
        return first if firsts.count(first) == 1 else str(thread)

    def make(self, thread, word):
        machine, phase = self.machine, self.phase(thread) or word
        before, on = dict(machine.words), machine.step[thread] and machine.step[thread].word
        found = on and before[on]
        outcome = machine.play(thread, word)
        self.note_wait(thread, outcome, phase, on)
        if word in ("add", "swap"):
            self.tickets[thread] = self.pred[thread] = found
        made = {on} if word in ("write", "swap", "add") else set()
        wrote = {name: (value, before[name]) for name, value in machine.words.items()
                 if value != before[name] or name in made}
        self.changed |= {name: (len(self.moves) + 1, thread)
                         for name, (left, was) in wrote.items() if left != was}
        return Move(thread, word, outcome, phase, wrote, (on, found))

    def note_wait(self, thread, outcome, phase, on):
        """An arrow leads to a step that ends a wait, from the last change of what is waited for,
        that came after the wait began. A thread waits if its due step would be in vain."""
        number = len(self.moves) + 1
        since = self.waiting.pop(thread, 0)
        if since and outcome != "waits":
            words = [on] if on else LOOKS_AT[phase]
            came, by = max((self.changed.get(word, (0, None)) for word in words),
                           key=lambda one: one[0])
            if came > since and by != thread:
                self.arrows.append((came, number))
        due = self.machine.due[thread]
        if due and outcome != "called" and self.machine.copy().play(thread, due) == "waits":
            self.waiting[thread] = since if outcome == "waits" and since else number

    def phase(self, thread):
        """The phase of a thread, or None if it is idle."""
        machine = self.machine
        step, call = machine.step[thread], machine.call[thread]
        if step is None:
            return INSIDE.get(machine.sign() or self.lock) if thread in machine.held else None
        if call == "wlock" and thread in machine.queue:
            return "AwaitReaders"
        word, owner = step.word if isinstance(step.word, tuple) else (step.word, thread)
        parts = [call, step.kind, word, None if owner == thread else "of another"]
        phase = PHASES[" ".join(filter(None, parts))]
        return "AwaitLink" if phase == "ReadNext" and machine.answers[thread] else phase

    def standing(self, thread):
        machine = self.machine
        if thread in machine.held:
            return STANDING[machine.sign()]
        if thread in machine.queue:
            return "queue"
        return "call" if machine.due[thread] else "rest"

    def state(self):
        machine, all_threads = self.machine, range(self.threads)
        return {
            "words": dict(machine.words), "held": sorted(machine.held), "queue": machine.queue[:],
            "standing": [self.standing(thread) for thread in all_threads],
            "phase": [self.phase(thread) for thread in all_threads],
            "unlinked": [self.is_unlinked(thread) for thread in all_threads],
            "own": [self.variable(thread) for thread in all_threads],
            "choices": [[machine.due[thread]] if machine.due[thread] else
                        sorted(machine.calls(thread)) for thread in all_threads],
        }

    def is_unlinked(self, thread):
        """Whether a thread is in the queue of an MCS lock, and the record before its own does not
        lead to it."""
        queue = self.machine.queue
        at = queue.index(thread) if thread in queue else 0
        return self.lock == "mcs" and at > 0 and (
            self.machine.words["next", queue[at - 1]] != thread + 1)

    def variable(self, thread):
        """What a thread holds in a variable of its own, as the page writes it, or None."""
        phase, words = self.phase(thread), self.machine.words
        if phase in ("AwaitTurn", "TicketInside", "ReadServing"):
            return f"ticket = {self.tickets[thread]}"
        if phase == "PassOn":
            return f"served = {words['now_serving']}"
        if phase in ("SetLocked", "LinkTo"):
            return f"pred = {self.short(self.pred[thread] - 1)}"
        return f"succ = {self.short(words['next', thread] - 1)}" if phase == "Grant" else None

    def value(self, word, value):
        """A value of a word: a pointer of an MCS lock has the name of a thread."""
        if self.lock != "mcs" or word[0] == "locked":
            return str(value)
        return self.short(value - 1) if value else "nil"

    def found(self, move):
        """What is below the mark of a move."""
        word, value = move.found
        if move.word == "cas":
            return "done" if move.wrote else "fails"
        if move.word == "section":
            return "".join(f"{SHORT.get(name, name)} {left}"
                           for name, (left, _) in list(move.wrote.items())[:1])
        return self.value(word, value) if move.word in ("read", "swap", "add") else ""

    def wrote(self, move):
        """The row of what a move wrote."""
        return ", ".join(
            f"{self.named(word)} = {self.value(word, left)} (was {self.value(word, was)})"
            for word, (left, was) in move.wrote.items()) or "no word"

    def named(self, word):
        """A word as the page names it."""
        return f"{self.short(word[1])}.{word[0]}" if isinstance(word, tuple) else word

    def caption(self, state):
        own = {"ticket": self.ticket_caption, "mcs": self.mcs_caption}
        return own.get(self.lock, self.readers_caption)(state)

    def ticket_caption(self, state):
        queue, words = state["queue"], state["words"]
        if not queue:
            return "No ticket is in use."
        first, last = [int(state["own"][one].split()[-1]) for one in (queue[0], queue[-1])]
        wraps = (f" The tickets have wrapped around: {first} is served before {last}."
                 if last < first else "")
        return f"It is the turn of ticket {words['now_serving']}.{wraps}"

    def mcs_caption(self, state):
        queue, words = state["queue"], state["words"]
        for before, after in zip(queue, queue[1:]):
            if words["next", before] != after + 1:
                said = f"{self.name(before)} is followed by {self.name(after)}, and only "
                return (said + f"{self.name(after)} knows.").replace("thread", "Thread", 1)
        if len(queue) > 1:
            return "Every link of the queue is written."
        alone = f"{self.name(queue[0])} is alone in the queue." if queue else "The queue is empty."
        return alone[0].upper() + alone[1:]

    def readers_caption(self, state):
        words = ", ".join(f"{name} {value}" for name, value in state["words"].items())
        inside = ", ".join(map(self.name, state["held"]))
        inside = inside[:1].upper() + inside[1:]
        does = "writes" if "writes" in state["standing"] else "inside"
        said = f"{inside} {does}, {words}." if inside else f"Nobody is inside, {words}."
        for writer in map(self.name, state["queue"]):
            said += f" {writer[0].upper()}{writer[1:]} is announced: no reader may pass."
        return said
