"""Ways to make a process run out of memory, file space or readers; and a pseudo-terminal."""
import contextlib
import os
import pty
import resource
import signal
import subprocess

from tree import PATIENCE, TESTS, output


def closing(*descriptors):
    """A `preexec_fn` that closes these descriptors before the process begins."""
    return lambda: [os.close(descriptor) for descriptor in descriptors]


def little_memory(size):
    """A `preexec_fn` that limits the address space of the process to `size` bytes."""
    return lambda: resource.setrlimit(resource.RLIMIT_AS, (size, size))


def refusing_library(folder):
    """Builds tests/refuse/refuse.c, which refuses a request for memory, in a folder."""
    assert output("cc", "-O2", "-Wall", "-Wextra", "-shared", "-fPIC", "-o", folder / "refuse.so",
                  TESTS / "refuse" / "refuse.c") == ""
    return folder / "refuse.so"


class Refusing:
    """Runs a program with refuse.c preloaded, which refuses one request for memory."""

    NEVER = 999_999  # the number of a request that no run reaches

    def __init__(self, program, folder):
        self.program, self.folder = program, folder
        self.library, self.log = refusing_library(folder), folder / "log"

    def run(self, number, words, text=b"", cwd=None):
        """The answer, whether request `number` was refused, and how many requests were made."""
        self.log.unlink(missing_ok=True)
        done = subprocess.run([self.program, *words], input=text, capture_output=True, check=False,
                              cwd=cwd or self.folder, timeout=PATIENCE,
                              env={"LD_PRELOAD": str(self.library), "REFUSE_NTH": str(number),
                                   "REFUSE_LOG": str(self.log)})
        answer = done.stdout, done.stderr, done.returncode
        assert self.log.exists(), f"request {number}: {answer}"
        request, requests = self.log.read_text().splitlines()
        return answer, request.endswith(" refused"), int(requests.split()[1])


def short_files(size):
    """A `preexec_fn` that limits each file that the process writes to `size` bytes."""
    def limit():
        signal.signal(signal.SIGXFSZ, signal.SIG_IGN)
        resource.setrlimit(resource.RLIMIT_FSIZE, (size, size))
    return limit


@contextlib.contextmanager
def left_pipe():
    """The write end of a pipe whose read end is closed."""
    reader, writer = os.pipe()
    os.close(reader)
    try:
        yield writer
    finally:
        os.close(writer)


class Terminal:
    """A pseudo-terminal. A process gets `writer`, and the test reads the other end."""

    def __enter__(self):
        self.reader, self.writer = pty.openpty()
        return self

    def __exit__(self, *_):
        os.close(self.reader)

    def written(self):
        """Closes the writer, and reads all that was written to it."""
        os.close(self.writer)
        parts = []
        with contextlib.suppress(OSError):  # Linux reports the end as an error
            while part := os.read(self.reader, 4_096):
                parts.append(part)
        return b"".join(parts)
