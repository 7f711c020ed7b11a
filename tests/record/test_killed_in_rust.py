"""Free threads in Rust whose process is killed leave logs, since a run writes them as it goes."""
import re
import signal
import subprocess
from pathlib import Path

import pytest

from recorders import cargo
from tree import PIPE, TOP, answer, environment, ran

pytestmark = [pytest.mark.slow, pytest.mark.xdist_group("cargo")]

THREADS, BLOCK = 2, 512  # the threads of the program below; bytes


RUST = """
use std::{env, process, sync::atomic::Ordering::SeqCst, thread, time::Duration};

use lockreplay_record::{call, AtomicU8, Call, Error, Lock, Run, Word};

fn main() -> Result<(), Error> {
    let words: Vec<String> = env::args().collect();
    let next = AtomicU8::new(0).noted(Word::NextTicket);
    let serving = AtomicU8::new(0).noted(Word::NowServing);
    let acquire = || {
        let _call = call(Call::Acquire);
        let ticket = next.fetch_add(1, SeqCst);
        while serving.load(SeqCst) != ticket {
            thread::yield_now();
        }
    };
    let release = || {
        let _call = call(Call::Release);
        let served = serving.load(SeqCst);
        serving.store(served.wrapping_add(1), SeqCst);
    };
    let rounds: usize = words[2].parse().unwrap();
    let run = Run::builder(Lock::Ticket, 2).bits(8).kept_in(&words[1]).open()?;
    run.threads(Duration::from_secs(60), |log| {
        for round in 0..rounds {
            acquire();
            release();
            if log.thread() == 1 && round == 12 {
                match words[3].as_str() {
                    "abort" => process::abort(),
                    "loop" => println!("going"),
                    _ => {}
                }
            }
        }
    })
    .map_err(|error| {
        eprintln!("{error}");
        error
    })?;
    if words[3] == "save" {
        run.save(&words[1])?;
    }
    Ok(())
}
"""


@pytest.fixture(scope="module")
def keeper(tmp_path_factory):
    """A program with a ticket lock in Rust that writes its logs as it goes: FOLDER ROUNDS HOW."""
    folder = tmp_path_factory.mktemp("keeper")
    (folder / "src").mkdir()
    (folder / "src" / "main.rs").write_text(RUST)
    (folder / "Cargo.toml").write_text(
        '[package]\nname = "keeper"\nversion = "0.1.0"\nedition = "2021"\n\n[dependencies]\n'
        f'lockreplay-record = {{ path = "{TOP / "record/rust"}" }}\n')
    made = cargo("build", folder=folder, target=folder / "target")
    assert made.returncode == 0, made.stderr
    return folder / "target" / "debug" / "keeper"


@pytest.mark.parametrize("how, sign", [("abort", signal.SIGABRT), ("loop", signal.SIGKILL)])
def test_killed_in_rust(keeper, ordered, tmp_path, how, sign):
    logs = tmp_path / "logs"
    logs.mkdir()
    for name in ("thread-1.log", "thread-5.log", "run.trace"):
        (logs / name).write_text("of an earlier run\n")
    process = subprocess.Popen([keeper, logs, "1000000000", how], stdout=PIPE, stderr=PIPE,
                               text=True)
    if how == "loop":
        assert process.stdout.readline() == "going\n"
        assert f"{logs}/thread-1.log" in Path(f"/proc/{process.pid}/maps").read_text()
        process.kill()
    process.communicate()
    assert process.returncode == -sign
    assert len(ordered(logs)[1]) >= 13 * 6
    text = (logs / "thread-1.log").read_text()
    assert "dropped" not in text and text.endswith("#")  # perhaps in the midst of a move


def test_kept_to_the_end_in_rust(keeper, ordered, tmp_path):
    """A run that ends well leaves whole logs, and nothing else."""
    assert answer(keeper, tmp_path / "logs", "20", "end")[1:] == ("", 0)
    assert [len(moves) >= 20 * 6 for moves in ordered(tmp_path / "logs")] == [True, True]
    for thread in range(THREADS):
        assert (tmp_path / "logs" / f"thread-{thread}.log").read_text().endswith("\ndropped 0\n")


@pytest.mark.parametrize("blocks, rounds", [(1, 200), (300, 3000)], ids=["at first", "later"])
def test_no_room_in_rust(keeper, tmp_path, blocks, rounds):
    """A thread that can no longer write its log reports it once, and the run goes on. The log takes
    what room there is, though the next piece of memory would not fit, and all of it has moves."""
    logs = tmp_path / "logs"
    done = ran("sh", "-c",
               f"trap '' XFSZ; ulimit -f {blocks}; exec {keeper} {logs} {rounds} end")
    fault = r"lockreplay_record: .*/thread-%d\.log: File too large \(os error 27\)\n"
    assert re.fullmatch("".join(sorted(fault % thread for thread in range(THREADS))),
                        "".join(sorted(done.stderr.splitlines(keepends=True))))
    assert done.returncode == 0
    assert [path.stat().st_size for path in logs.iterdir()] == THREADS * [blocks * BLOCK]
    assert not any("##" in path.read_text() for path in logs.iterdir())


def test_no_room_to_save_in_rust(keeper, tmp_path):
    """A run that cannot be saved where its logs are kept leaves them as they are."""
    logs = tmp_path / "logs"
    done = ran("sh", "-c", f"trap '' XFSZ; ulimit -f 300; exec {keeper} {logs} 3000 save")
    assert re.search(r'^Error: Save \{ path: ".*/thread-0\.log", error: .* code: 27,', done.stderr,
                     re.MULTILINE)
    assert done.returncode == 1
    sizes = {path.name: path.stat().st_size for path in logs.iterdir()}
    assert sizes == {f"thread-{thread}.log": 300 * BLOCK for thread in range(THREADS)}


def test_no_thread_in_rust(keeper, tmp_path):
    """A run whose thread is refused ends at once, and not after its time of a minute."""
    done = ran(keeper, tmp_path / "logs", "20", "end", timeout=30,
               env=environment(RUST_MIN_STACK=str(2**46)))
    assert re.match(r"a thread was not started: .* \(os error 11\)\nError: Start\(", done.stderr)
    assert done.returncode == 1
