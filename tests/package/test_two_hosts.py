"""Many schedules and traces in blocks, on one machine and over two hosts, by the commands of
docs/FORMATS.md for GNU parallel.

Each host is an sshd on a port of the loopback device, and reads no settings of the machine's ssh.
One host goes away in the middle of a run. When it is back, the same command does the remaining
blocks. Each result has to equal the output of the program here.

The output of a job comes through the connection that also brings its status. A file that `parallel`
fetches after a job can be lost with its host, and `parallel` takes the job as done.
"""
import itertools
import os
import re
import shlex
import signal
import socket
import subprocess
import time
from pathlib import Path

import pytest

import corpus
from tree import TOP, environment, output, ran

BLOCK, PATIENCE = 250, 100  # files; seconds
BLOCKS = 10
DOCUMENT = (TOP / "docs" / "FORMATS.md").read_text()
BLOCKS_OF_CODE = re.findall(r"```sh\n(parallel .*?)\n```", DOCUMENT, re.DOTALL)
HERE, *COMMANDS = "\n".join(BLOCKS_OF_CODE).replace("\\\n", "").splitlines()
SERVER = """ListenAddress 127.0.0.1
Port {port}
HostKey {folder}/key
AuthorizedKeysFile {folder}/key.pub
StrictModes no
PidFile none
ForceCommand cd {folder}/{port} && PATH={folder}:$PATH HOME=$PWD sh -c "$SSH_ORIGINAL_COMMAND"
"""
SSH = ("ssh -F none -i {}/key -o StrictHostKeyChecking=no -o UserKnownHostsFile=/dev/null "
       "-o LogLevel=ERROR")


class Host:
    def __init__(self, folder):
        with socket.create_server(("127.0.0.1", 0)) as asked:
            self.port = asked.getsockname()[1]
        (folder / str(self.port)).mkdir()
        (folder / f"{self.port}.server").write_text(SERVER.format(port=self.port, folder=folder))
        self.words = ["/usr/sbin/sshd", "-D", "-f", folder / f"{self.port}.server"]
        self.login = [*SSH.format(folder).split(), "-p", self.port, "127.0.0.1", "true"]

    def come(self):
        self.process = subprocess.Popen(self.words, start_new_session=True)
        until = time.monotonic() + PATIENCE
        while ran(*self.login).returncode:
            assert time.monotonic() < until
            time.sleep(0.1)

    def go(self):
        os.killpg(self.process.pid, signal.SIGKILL)  # the server and its logins
        self.process.wait()


def write_runs(folder, ending, count):
    """Writes this many small texts into the folder `runs`. The last one is refused."""
    texts = [text for name, text in sorted(corpus.TEXTS.items())
             if name.startswith("end-") and len(text) < 1000]
    (folder / "runs").mkdir()
    names = [f"runs/{number:05}{ending}" for number in range(count)]
    for name, text in zip(names, itertools.cycle(texts)):
        (folder / name).write_bytes(text)
    (folder / names[-1]).write_bytes(corpus.TEXTS["refused-NoCall-mcs-idle"])
    return names


def blocks_of(names):
    return [names[at:at + BLOCK] for at in range(0, len(names), BLOCK)]


def check_outputs(folder, ending, program, names):
    """Each block has a file, with the output of one process for all its files."""
    blocks = blocks_of(names)
    assert {path.name for path in folder.glob(f"*{ending}")} \
        == {f"{number}{ending}" for number in range(1, len(blocks) + 1)}
    for number, block in enumerate(blocks, 1):
        own = ran(*program, *block, text=False, cwd=folder)
        assert (folder / f"{number}{ending}").read_bytes() == own.stdout


def test_one_machine(lockreplay, tmp_path):
    """The last block is not full, and has a refused text."""
    names = write_runs(tmp_path, ".schedule", 2 * BLOCK + 3)
    (tmp_path / "lockreplay").symlink_to(lockreplay)
    done = ran("sh", "-c", HERE, cwd=tmp_path,
               env=environment(PATH=f"{tmp_path}:{os.environ['PATH']}"))
    assert (done.stdout, done.returncode) == ("", 1)
    check_outputs(tmp_path, ".reports", [lockreplay, "batch", "--workers", "2"], names)


@pytest.mark.parametrize("command", COMMANDS, ids=["replayed", "checked"])
def test_two_hosts(lockreplay, locktrace, tmp_path, request, command):
    words = shlex.split(command)
    result, log = (words[words.index(name) + 1] for name in ("--results", "--joblog"))
    job, pattern = words[words.index(":::") - 1], words[words.index(":::") + 1]
    names = write_runs(tmp_path, Path(pattern).suffix, BLOCKS * BLOCK - 7)
    for program in (lockreplay, locktrace):
        (tmp_path / program.name).symlink_to(program)
    output("ssh-keygen", "-q", "-t", "ed25519", "-N", "", "-f", tmp_path / "key")
    os.makedirs("/run/sshd", exist_ok=True)  # the folder of sshd's privilege separation
    hosts = [Host(tmp_path), Host(tmp_path)]
    (tmp_path / "hosts").write_text("".join(f"2/127.0.0.1:{host.port}\n" for host in hosts))
    how = {"cwd": tmp_path, "env": environment(PATH=f"{tmp_path}:{os.environ['PATH']}",
           PARALLEL_SSH=SSH.format(tmp_path), PARALLEL_HOME=str(tmp_path))}

    def jobs():
        return [it.split("\t") for it in ran("tail", "-n", "+2", log, **how).stdout.splitlines()]

    for host in hosts:
        host.come()
        request.addfinalizer(host.go)
    run = subprocess.Popen(["sh", "-c", f"exec {command}"], stderr=subprocess.DEVNULL, **how)
    while len(jobs()) < BLOCKS // 4 and run.poll() is None:
        time.sleep(0.05)
    hosts[1].go()
    assert run.wait(PATIENCE)
    assert "255" in {it[6] for it in jobs()}
    hosts[1].come()
    ran("sh", "-c", command, **how)
    last = {it[0]: (it[1], it[6]) for it in jobs()}
    assert {status for _, status in last.values()} == {"0", "1"}
    assert len({host for host, _ in last.values()}) == 2
    program = [tmp_path / word if word.startswith("lock") else word
               for word in shlex.split(job.replace("{}", ""))]
    check_outputs(tmp_path, result.removeprefix("{#}"), program, names)
