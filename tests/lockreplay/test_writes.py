"""`lockreplay` writes a batch in few writes.

A batch writes to a socket that keeps each write as a message, so the test can count the writes.
Reports are a little shorter than the program's buffer (65,536 bytes), as long, a byte longer, and
three times as long. The test puts the expected text together from the report of each schedule.
"""
import socket
import threading

from oracle import batch_of
from tree import PATIENCE, cases

WAITING = 65_536  # bytes
MOST = 1 << 20    # bytes of one message
NO_MOVES = (b"lock ticket threads 1\n", b"end 0\n")
ENTER = b"0 acquire\n0 add\n1 acquire\n1 add\n10 acquire\n10 add\n"
ENTERED = (b"1 0 acquire called hold - queue -\n2 0 add moved hold - queue 0\n"
           b"3 1 acquire called hold - queue 0\n4 1 add moved hold - queue 0,1\n"
           b"5 10 acquire called hold - queue 0,1\n6 10 add moved hold - queue 0,1,10\n")


def polling(threads):
    """A schedule in which these threads make failed polls, one after another, and its report."""
    text = b"lock ticket threads 11\n" + ENTER + b"".join(b"%d read\n" % t for t in threads)
    lines = (b"%d %d read waits hold - queue 0,1,10\n" % (k, t) for k, t in enumerate(threads, 7))
    return text, ENTERED + b"".join(lines) + b"end %d\n" % (6 + len(threads))


def of_length(length):
    """A schedule whose report has `length` bytes: a poll by thread 10 adds a byte to one by 1."""
    count = max(0, length - 300) // 41
    while len(polling([1] * (count + 1))[1]) <= length:
        count += 1
    more = length - len(polling([1] * count)[1])
    return polling([10] * more + [1] * (count - more))


AROUND = [of_length(length) for length in (65_510, WAITING, WAITING + 1, 200_000, 65_520)]


@cases("texts, most_writes", {
    "reports around what waits": ([NO_MOVES, *AROUND[:2], NO_MOVES, *AROUND[2:4], NO_MOVES,
                                   AROUND[4], NO_MOVES], 12),
    "2,000 short reports": ([NO_MOVES] * 2_000, 1),  # 13 to 16 bytes each, 31,000 in all
    "300 reports of 1,000 bytes": ([of_length(1_000)] * 300, 5),
})
def test_batch_in_few_writes(replayer, texts, most_writes):
    replayer.write(**{f"text{k}": text for k, (text, _) in enumerate(texts)})
    near, far = socket.socketpair(socket.AF_UNIX, socket.SOCK_SEQPACKET)
    far.setsockopt(socket.SOL_SOCKET, socket.SO_SNDBUF, MOST)
    near.settimeout(PATIENCE)
    writes = []
    reader = threading.Thread(target=lambda: writes.extend(iter(lambda: near.recv(MOST), b"")))
    reader.start()
    files = [f"text{k}" for k in range(len(texts))]
    done = replayer.run("batch", "--workers", "2", *files, stdout=far)
    far.close()
    reader.join()
    near.close()
    due = batch_of([report for _, report in texts])
    assert (b"".join(writes), *done) == (due, b"", b"", 0)
    assert len(writes) <= most_writes
