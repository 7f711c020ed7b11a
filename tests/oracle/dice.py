"""Random choices for generators that draw from a `random.Random`, as hypothesis makes them.

Hypothesis draws bytes, and each choice of a generator takes the next ones. After the last byte
every byte is 0, which takes the first of the possible choices. So a failing value shrinks with its
bytes.
"""
import random
import zlib

from hypothesis import given, seed, settings
from hypothesis import strategies as st

CHUNK = 8  # bytes


class Dice(random.Random):
    def __init__(self, data):
        super().__init__(0)
        self.data, self.at = data, 0

    def getrandbits(self, k):
        count = (k + 7) // 8
        self.at += count
        taken = self.data[self.at - count:self.at].ljust(count, b"\0")
        return int.from_bytes(taken, "big") >> (8 * count - k)

    def random(self):
        return self.getrandbits(16) / (1 << 16)

    def sample(self, population, k):
        """Draws no item twice. `Random` would redraw until it has a new one: for ever, once all
        bytes are 0."""
        rest = list(population)
        return [rest.pop(self.randrange(len(rest))) for _ in range(k)]


def drawn(generator, most=1_200):
    """The values that a generator makes from at most `most` bytes. Hypothesis draws the bytes in
    chunks, each of which it can drop or shrink by itself."""
    chunk = st.binary(min_size=CHUNK, max_size=CHUNK)
    return st.integers(0, most // CHUNK).flatmap(
        lambda count: st.lists(chunk, min_size=count, max_size=count)).map(
        lambda chunks: generator(Dice(b"".join(chunks))))


def try_random(request, strategy, check, count, at_once=1):
    """Checks `count` random values, or a tenth of them with --quick, and reports the number. With
    `at_once`, the strategy makes lists of that many values on average. Each test derives a seed of
    its own from the printed seed."""
    tried, count = [], count // (10 if request.config.getoption("quick") else 1)

    @settings(max_examples=count // at_once)
    @given(strategy)
    def check_some(values):
        tried.append(len(values) if at_once > 1 else 1)
        check(values)

    number = int(request.config.getoption("hypothesis_seed"))
    seed(number ^ zlib.crc32(request.node.nodeid.encode()))(check_some)()
    request.node.user_properties.append(("tried", f"{sum(tried)} random values"))
