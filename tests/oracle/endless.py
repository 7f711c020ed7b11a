"""Runs that go on for ever, searched over the oracle: a way to a position, and a cycle back to it
in which each thread moves that is in a call or holds the lock.

A cycle stays within a strongly connected component of the positions (Tarjan, SIAM J. Comput. 1(2),
1972). A component has a cycle that has all that is asked if its transitions and positions have it.
"""
import sys
from collections import deque

from spaces import AGAIN, IS, NOT, Wanted, agrees, parsed

sys.setrecursionlimit(100_000)  # above the states of any space here
DONE = float("inf")  # of a component that was found


def components(follow, start):
    """The strongly connected components of a graph."""
    number, low, stack, found = {}, {}, [], []

    def visit(place):
        number[place] = low[place] = len(number)
        stack.append(place)
        for to in follow(place):
            if to not in number:
                visit(to)
            low[place] = min(low[place], low[to])
        if low[place] == number[place]:
            at = stack.index(place)
            found.append(set(stack[at:]))
            low.update(dict.fromkeys(stack[at:], DONE))
            del stack[at:]

    for root in start:
        if root not in number:
            visit(root)
    return found


class Endless:
    """A sketch with `again`, in a space."""
    def __init__(self, space, sketch):
        at = sketch.index(AGAIN)
        self.space, self.way, after = space, Wanted(sketch[:at] + [AGAIN]), sketch[at + 1:]
        self.barred = Wanted([line for line in after if line.startswith(NOT)]).barred[0]
        self.moves = [parsed(line) for line in after if not line.startswith((NOT, IS))]
        self.facts = [line.removeprefix(IS).split(", ") for line in after if line.startswith(IS)]

    def allowed(self, state):
        """The transitions of the cycle from a state."""
        return [transition for transition in self.space.transitions[state]
                if not any(agrees(line, transition) for line in self.barred)]

    def lengths(self):
        """The states that are reached after the lines before the cycle, with the fewest moves."""
        space, whole = self.space, len(self.way.lines)
        reached = {(0, count): 0 for count in self.way.shown([0], space, 0)}
        queue = deque(reached)
        while queue:
            state, count = here = queue.popleft()
            ways = self.allowed(state) if count == whole else space.transitions[state]
            for transition in ways:
                counts = self.way.counts(count, transition)
                for after in self.way.shown(counts, space, transition.after):
                    if (transition.after, after) not in reached:
                        reached[transition.after, after] = reached[here] + 1
                        queue.append((transition.after, after))
        return {state: length for (state, count), length in reached.items() if count == whole}

    def is_fair(self, states, transitions):
        """Whether some cycle of these has all that it needs."""
        moved = {transition.thread for transition in transitions}
        threads = range(len(self.space.states[0][1]))
        idle = {t for t in threads for s in states if self.space.states[s][1][t][0] == "Idle"}
        return (transitions and moved | idle >= set(threads)
                and all(any(agrees(line, each) for each in transitions) for line in self.moves)
                and all(any(all(self.space.is_true(fact, state) for fact in facts)
                            for state in states) for facts in self.facts))

    def length(self):
        """The length of a shortest way to a position with such a cycle; None if there is none."""
        lengths, found = self.lengths(), []
        for states in components(lambda s: [t.after for t in self.allowed(s)], lengths):
            inside = [each for state in states for each in self.allowed(state)
                      if each.after in states]
            if self.is_fair(states, inside):
                found.append(min(lengths[state] for state in states))
        return min(found, default=None)

    def is_cycle(self, states, transitions):
        """Whether these transitions, from the states that they have in turn, are such a cycle."""
        return (states[0] == transitions[-1].after and self.is_fair(states, transitions)
                and all(each in self.allowed(state) for state, each in zip(states, transitions)))
