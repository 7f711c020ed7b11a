"""`locktrace space` gives the counts of the worked rows, and draws the graph of a space."""
import json
import re

import pytest

import search_rows
from spaces import searched
from tree import cases

ENDS = "dead ends: none (proved for every size)"
TICKET_DRAWN = r"""digraph "ticket, 1 thread with 1 round" {
  node [shape=box]
  0 [label="next_ticket = 0, now_serving = 0\n0 Idle\nrounds begun: 0"]
  1 [label="next_ticket = 0, now_serving = 0\n0 TakeTicket\nrounds begun: 1"]
  2 [label="next_ticket = 1, now_serving = 0\n0 AwaitTurn(0)\nrounds begun: 1"]
  3 [label="next_ticket = 1, now_serving = 0\n0 TicketInside(0)\nrounds begun: 1"]
  4 [label="next_ticket = 1, now_serving = 0\n0 ReadServing(0)\nrounds begun: 1"]
  5 [label="next_ticket = 1, now_serving = 0\n0 PassOn(0)\nrounds begun: 1"]
  6 [label="next_ticket = 1, now_serving = 1\n0 Idle\nrounds begun: 1"]
  0 -> 1 [label="0 acquire"]
  1 -> 2 [label="0 add"]
  2 -> 3 [label="0 read"]
  3 -> 4 [label="0 release"]
  4 -> 5 [label="0 read"]
  5 -> 6 [label="0 write"]
}
"""


@pytest.mark.parametrize("row, counts, _", list(search_rows.spaces()), ids=str)
def test_counts_of_the_program(tracer, row, counts, _):
    found = json.loads(tracer.output("space", row.lock, row.threads, "--rounds", row.rounds,
                                     "--bits", row.bits, "--format", "json"))
    assert tuple(found[name] for name in counts._fields) == counts


@cases("words, due", {
    "text": ("ticket 3", "ticket, 3 threads with 1 round each: 231 states, 570 transitions, "
             f"18 moves to the farthest state; {ENDS}\n"),
    "JSON": ("ticket 2 --rounds 3 --bits 2 --format json",
             '{"lock":"ticket","threads":2,"rounds":3,"bits":2,"states":289,"transitions":540,'
             '"depth":36}\n'),
    "narrow counters": ("ticket 3 --bits 2", "ticket, 3 threads with any number of rounds each: "
                        "512 states, 1,536 transitions, 27 moves to the farthest state; "
                        f"{ENDS}\n"),
    "no counters": ("mcs 2 --format json",
                    '{"lock":"mcs","threads":2,"rounds":"any","bits":64,"states":89,'
                    '"transitions":178,"depth":18}\n'),
    # of each value of the counters as many as with 2 bits, whose counts are in spaces.txt
    "counters that pass a byte": ("ticket 2 --rounds any --bits 9 --format json",
                                  '{"lock":"ticket","threads":2,"rounds":"any","bits":9,'
                                  '"states":14336,"transitions":28672,"depth":3073}\n'),
    "a count that passes a byte": ("rw-fifo 2 --rounds any --bits 9 --format json",
                                   '{"lock":"rw-fifo","threads":2,"rounds":"any","bits":9,'
                                   '"states":27136,"transitions":66560,"depth":2051}\n'),
    "the greatest limit": ("ticket 1 --limit 4000000000",
                           "ticket, 1 thread with 1 round: 7 states, 6 transitions, "
                           f"6 moves to the farthest state; {ENDS}\n"),
    "a drawing": ("ticket 1 --format dot", TICKET_DRAWN),
})
def test_format(tracer, words, due):
    assert tracer.run("space", *words.split()) == (due, "", 0)


def graph_of(text):
    """A map from each state's number to its moves, and from each move to the state after it."""
    graph = {int(node): {} for node in re.findall(r"^  (\d+) \[label=", text, re.MULTILINE)}
    edges = re.findall(r'^  (\d+) -> (\d+) \[label="(\d+) (\w+)"\]$', text, re.MULTILINE)
    for start, end, thread, word in edges:
        graph[int(start)][int(thread), word] = int(end)
    return graph


def test_labels(tracer):
    output = tracer.run("space", "ticket", "2", "--format", "dot")[0]
    for phases, begun in ("0 TakeTicket, 1 Idle", "1, 0"), ("0 Idle, 1 TakeTicket", "0, 1"):
        label = f"next_ticket = 0, now_serving = 0\\n{phases}\\nrounds begun: {begun}"
        assert f'[label="{label}"]\n' in output


@pytest.mark.parametrize("rounds", [1, search_rows.ANY])
@pytest.mark.parametrize("lock", search_rows.names())
def test_drawing(tracer, lock, rounds):
    """The drawn graph equals the oracle's, up to the numbers of states. Labels count rounds only if
    rounds have a bound."""
    output = tracer.output("space", lock, "2", "--rounds", rounds, "--bits", "2",
                           "--format", "dot")
    assert ("rounds begun" in output) == (rounds == 1)
    graph, space = graph_of(output), searched(search_rows.Space(lock, 2, rounds, 2))
    assert list(graph) == list(range(len(space)))
    numbers = {0: 0}
    for node, edges in graph.items():
        moves = {(each.thread, each.word): each.after for each in space.transitions[numbers[node]]}
        assert set(edges) == set(moves), f"from {node}"
        for move, end in edges.items():
            assert numbers.setdefault(end, moves[move]) == moves[move], f"from {node} by {move}"
