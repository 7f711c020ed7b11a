"""Random schedules and random texts, drawn from one random number generator.

Most moves are the due step or an allowed call, which machine.py knows, so schedules reach deep into
each lock. Some schedules have a refused move or a line that is no move near their end, and some
texts have bytes changed.
"""
import oracle
from locks import LOCKS
from locks.lock import CALLS, STEPS
from machine import Machine

NAMES = sorted(LOCKS)
WORDS = sorted(CALLS | STEPS)
# Parts of lines that are almost right.
ODD_NUMBERS = ["00", "01", "256", "999", "-1", "+1", "", "0x1", "1e1", "9" * 100, "\u0661"]
ODD_WORDS = ["", "Acquire", "acquir", "acquires", "go", "read\r", "read\0", "wlock ", "section x"]
ODD_HEADERS = ["lock", "lock ticket", "lock ticket threads", "lock ticket threads ",
               "lock ticket threads 2 ", "lock  ticket threads 2", " lock ticket threads 2",
               "Lock ticket threads 2", "lock ticket thread 2", "lock clh threads 2",
               "lock rw threads 2", "lock ticket threads 0", "lock ticket threads 65",
               "lock ticket threads 02", "lock ticket threads 2\r", "lock ticket threads 2 bits",
               "lock ticket threads 2 bits ", "lock ticket threads 2 bits 1",
               "lock ticket threads 2 bits 65", "lock ticket threads 2 bits 08",
               "lock ticket threads 2 bit 8", "lock ticket threads 65 bits 1",
               "lock ticket threads 65 bits 7", "lock ticket threads 64 bits 6",
               "lock ticket threads 4 bits 2", "lock mcs threads 2 bits 64 ",
               "lock mcs threads " + "9" * 100, "0 acquire"]


def header(chance):
    """The header of a schedule: the lock's name, the threads, and the line."""
    name = chance.choice(NAMES)
    if chance.random() < 0.4:
        threads = chance.choice([1, 2, 3, 3, 4])
    else:
        threads = chance.choice([1, 2, 3, 7, 8, 15, 16, 31, 32, 63, 64, chance.randint(1, 64)])
    narrowest = max(2, threads.bit_length())
    bits = chance.choice([None, narrowest, narrowest, chance.randint(narrowest, 64)])
    line = f"lock {name} threads {threads}"
    return name, threads, line if bits is None else f"{line} bits {bits}"


def allowed_move(chance, machine, thread):
    """A move of the thread that is not refused."""
    return machine.due[thread] or chance.choice(sorted(machine.calls(thread)))


def moves(chance, name, threads, count):
    """Yields `count` moves, none refused, by some or all threads, some of which move in bursts."""
    machine = Machine(name, threads)
    few = chance.sample(range(threads), min(threads, chance.choice([1, 2, 3, 5, 64])))
    stay = chance.choice([0.0, 0.3, 0.6, 0.9])
    thread = chance.choice(few)
    for _ in range(count):
        if chance.random() >= stay:
            thread = chance.choice(few)
        word = allowed_move(chance, machine, thread)
        machine.play(thread, word)
        yield thread, word


def stray_move(chance, name, threads, played):
    """A well-formed move, allowed or not, mostly by a thread that has moved before."""
    lock = LOCKS[name]
    thread = chance.choice(played)[0] if played else chance.randrange(threads)
    if chance.random() < 0.1:
        thread = chance.choice([threads, 255, chance.randint(0, 255)])
    own = lock.calls if chance.random() < 0.6 else lock.steps
    return f"{thread} {chance.choice(WORDS if chance.random() < 0.1 else sorted(own))}"


def odd_line(chance):
    """A line that is no move. A line that begins with CR is no comment and no empty line."""
    if chance.random() < 0.1:
        return chance.choice(["\r", "\r\r", "\r# 0 acquire", "\r0 acquire"])
    if chance.random() < 0.5:
        return f"{chance.choice(ODD_NUMBERS)} {chance.choice(WORDS)}"
    thread, between = chance.randint(0, 3), chance.choice([" ", "  ", "", chr(9)])
    return f"{thread}{between}{chance.choice(ODD_WORDS)}"


def sprinkle(chance, lines):
    """Inserts empty lines and comments among the lines, at most 40."""
    for _ in range(chance.choice([0, 0, 1, 3, 40])):
        line = chance.choice(["", "#", "# 0 acquire", "#" * chance.randint(1, 200), "#\0\xff\r"])
        lines.insert(chance.randint(0, len(lines)), line)


def random_schedule(chance, longest):
    name, threads, line = header(chance)
    count = chance.choice([0, 1, 5, 20, 100, 400, chance.randint(0, longest)])
    played = list(moves(chance, name, threads, count))
    lines = [line] + [f"{thread} {word}" for thread, word in played]
    if chance.random() < 0.5:
        for _ in range(chance.choice([1, 1, 2, 10])):
            lines.insert(chance.randint(max(1, len(lines) - 5), len(lines)),
                         stray_move(chance, name, threads, played))
    if chance.random() < 0.1:
        lines.insert(chance.randint(1, len(lines)), odd_line(chance))
    if chance.random() < 0.1:
        lines[0] = chance.choice(ODD_HEADERS)
    sprinkle(chance, lines)
    ending = "" if chance.random() < 0.1 else "\n"
    return ("\n".join(lines) + ending).encode("latin-1", "replace")


def changed_text(chance, text):
    """The text with a few bytes or lines changed, doubled, dropped or cut off."""
    text = bytearray(text)
    for _ in range(chance.choice([1, 1, 2, 5])):
        at = chance.randint(0, len(text))
        kind = chance.randrange(6)
        if kind == 0:
            text[at:at + 1] = bytes([chance.randrange(256)])
        elif kind == 1:
            text[at:at] = chance.choice([b" ", b"\n", b"\r", b"#", b"0", b"\0", b"\xff"])
        elif kind == 2:
            del text[at:at + chance.choice([1, 1, 7, 100])]
        elif kind == 3:
            del text[at:]
        elif kind == 4:
            text[at:at] = text[chance.randint(0, at):at]
        elif at:
            text[at - 1] ^= 1 << chance.randrange(8)
    return bytes(text)


def most_moves(chance, beyond):
    """A schedule with `beyond` moves over the limit, or with all moves and a line that is none."""
    name, threads, line = header(chance)
    ends_oddly = chance.random() < 0.5
    played = moves(chance, name, threads, oracle.MOST_MOVES + (0 if ends_oddly else beyond))
    lines = [line, *(f"{thread} {word}" for thread, word in played)]
    if ends_oddly:
        lines.append(odd_line(chance))
    return "\n".join(lines).encode("latin-1", "replace") + b"\n"


def limit_text(chance):
    """A text at one of the limits, one below it, or one beyond."""
    beyond = chance.choice([-1, 0, 1, 1])
    kind = chance.randrange(4)
    if kind == 0:
        return most_moves(chance, beyond)
    text = b"lock mcs threads 1\n" if chance.random() < 0.5 else b""
    room = oracle.MOST_BYTES + beyond - len(text)
    if kind == 1:
        return text + b"\n" * room
    if kind == 2:
        return text + chance.choice([b"#", b"0", b" ", b"\0"]) * room
    return text + chance.randbytes(room)


def random_bytes(chance):
    letters = chance.choice([b"lock ticket threads 2\n0 acquire", bytes(range(256)), b"\n# 0a"])
    return bytes(chance.choice(letters) for _ in range(chance.choice([0, 1, 3, 30, 300])))


def random_text(chance, longest):
    """A text: mostly a schedule, else a changed schedule or random bytes."""
    kind = chance.random()
    if kind < 0.75:
        return random_schedule(chance, longest)
    if kind < 0.95:
        return changed_text(chance, random_schedule(chance, 200))
    return random_bytes(chance)
