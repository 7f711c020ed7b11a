"""Finds where a mistake of a recorded lock first shows in a trace, without a machine of the lock.

Each function takes the moves of a trace, as pairs (line number, words), and returns the number of
the first line in which the mistake shows, or None if it does not show in the run. Each function
knows only the sign of one mistake; nothing here replays a lock.
"""
from collections import defaultdict


def moves_of(text):
    """The moves of a trace's text: (line number, words) without comments and header."""
    lines = [(number, line.split(" ")) for number, line in enumerate(text.splitlines(), 1)
             if line and not line.startswith("#")]
    return lines[1:]


def first(is_wrong):
    """The first move that is wrong after those of its thread since `acquire`: `last` has the last
    one of each kind, and the last of all as `move`."""
    def find(moves):
        last = defaultdict(dict)
        for number, (thread, *move) in moves:
            if is_wrong(move, last[thread]):
                return number
            kept = {} if move == ["acquire"] else last[thread]
            last[thread] = {**kept, move[0]: move, "move": move}
        return None
    return find


# A thread calls `release` though its last poll did not find its ticket.
enters_at_another_ticket = first(
    lambda move, last: move == ["release"] and last["read"][3] != last["add"][3])

# A thread polls once more after a poll that found its ticket.
polls_again = first(lambda move, last: move[0] == "read" and "release" not in last and (
    last["move"][0] == "read" and last["read"][3] == last["add"][3]))

# A thread swaps right after `acquire`, without the write that clears its `next`.
clears_nothing = first(lambda move, last: move[0] == "swap" and last["move"] == ["acquire"])

# A thread links itself though its last move did not set its `locked`.
links_unlocked = first(lambda move, last: move[:3] == ["write", "next", "of"] and (
    last["move"] != ["write", "locked", "left", "1"]))

# A grant goes to a record other than the one that the release read.
grants_to_another = first(lambda move, last: move[:3] == ["write", "locked", "of"] and (
    int(move[3]) + 1 != int(last["read"][3])))


def serves_another_ticket(bits):
    """A release writes a value that is not one more than it read, in words of `bits` bits."""
    return first(lambda move, last: move[0] == "write" and (
        int(move[3]) != (int(last["read"][3]) + 1) % (1 << bits)))


def makes(*words):
    """The first move that begins with these words, which the right lock never makes."""
    return first(lambda move, _: move[:len(words)] == list(words))


def loses_a_write(word):
    """A swap or an addition does not find the value that the last one left in the word."""
    def first(moves):
        left = "0"
        for number, (_, *move) in moves:
            if move[1:2] != [word] or "left" not in move:
                continue
            if move[3] != left:
                return number
            left = move[move.index("left") + 1]
        return None
    return first


def enters(is_wrong):
    """The first section that enters although `is_wrong(call, inside, announced)`.

    `inside` has the calls of the other holders, and `announced` the other threads that have set the
    flag of a FIFO lock and wait for readers."""
    def first(moves):
        call, inside, announced = {}, {}, set()
        for number, (thread, *move) in moves:
            if move[0] != "section":
                call[thread] = move[0]
            elif move[2] == "moved":
                announced.add(thread)
            elif move[2] == "left":
                inside.pop(thread, None)
            elif move[2] == "entered":
                others = [held for holder, held in inside.items() if holder != thread]
                if is_wrong(call[thread], others, announced - {thread}):
                    return number
                announced.discard(thread)
                inside[thread] = call[thread]
        return None
    return first


writes_beside_another = enters(lambda call, inside, announced: call == "wlock" and inside)
passes_a_writer = enters(lambda call, inside, announced: call == "rlock" and announced)
reads_beside_a_writer = enters(
    lambda call, inside, announced: call == "rlock" and (announced or "wlock" in inside))
