"""Presses Tab in a real bash, zsh and fish, which find the completions by their own rules.

Each case is a line as typed, and the line after Tab, which is the same in all three shells. A key
bound in the shell then writes the line to a file. The tests do not call a completion function by
itself, since it may work although no shell finds it.
"""
import os
import pty
import re
import select
import signal
import time

import pytest

# What is typed up to `|`, after these words, and what Tab adds to it; `_` is a blank at the end.
TABS = r"""
    lockreplay: rep|lay_; b|atch_; he|lp_; --h|elp_; x|
    lockreplay replay: --h|elp_; hand|; < hand|ed-on.schedule_; --w|
    lockreplay batch: --w|orkers_; --h|elp_; hand|ed-on.schedule_;
        --workers 2 hand|ed-on.schedule_; --workers 2 --w|; --workers 2 --h|elp_;
        --workers 2 a.schedule hand|ed-on.schedule_; handed-on.schedule --w|orkers_; --workers 1|_;
        --workers 2|_; --workers 3|_; --workers 4|_; --workers 5|_; --workers 6|_; --workers 7|_;
        --workers 8|_; --workers 0|; --workers 9|; --workers 10|
    lockreplay help: b|atch_; rep|lay_
    locktrace: ch|eck_; sch|edule_; --v|ersion_; fi|nd_; tou|r_
    locktrace check: --su|mmary_; --format j|son_; --color ne|ver_; --qu|iet_; --pa|ge_;
        --page hand|ed-on.schedule_; --fr|om_; --from hand|ed-on.schedule_; hand|ed-on.schedule_;
        --summary a.schedule hand|ed-on.schedule_; --format d|
    locktrace explain: --mo|ves_; hand|ed-on.schedule_; --fo|; --format j|
    locktrace order: --format j|son_; --qu|iet_; hand|ed-on.schedule_
    locktrace help: ord|er_; sp|ace_
    locktrace find: rw-s|imple_; hand|ed-on.schedule_; --ro|unds_; --rounds a|ny_;
        --rounds 2 rw-s|imple_; --limit 9 hand|ed-on.schedule_; --fo|; --format j|;
        mcs 2 '* cas' --li|mit_
    locktrace space: --rounds a|ny_; m|cs_; --format j|son_; --format d|ot_;
        --format json tick|et_; --bits 2 --rounds 1 mc|s_; mcs rw-s|; --format ta|
    locktrace tour: --rounds a|; rw-f|ifo_; --li|mit_; -o runs rw-f|ifo_;
        -o runs rw-fifo --li|mit_; --fo|; --format j|
    locktrace cover: --format ta|; --re|quire_; --require al|l_; --require downgrade:\ e|ntered_;
        --require acquire:\ j|oined\ the\ queue_; --require 'wlock: an|nounced itself'_;
        --require all hand|ed-on.schedule_; hand|ed-on.schedule_
    locktrace schedule: --fo|; --format j|
"""
CASES = [(f"{words} {typed}", f"{words} {typed}{added.replace('_', ' ')}")
         for words, tabs in re.findall(r"(?m)^    (\w[\w ]*): (.*(?:\n {8}.*)*)", TABS)
         for typed, added in (tab.split("|") for tab in re.split(r";\s+", tabs))]

# The command of each shell, and the lines that it gets first. They bind Control-T to a function
# that writes the current line to a file.
SHELLS = {
    "bash": (["bash", "--norc", "--noprofile", "-i"], """
        . /usr/share/bash-completion/bash_completion
        line() { printf '%s|' "$READLINE_LINE" > line; }
        bind -x '"\\C-t": line'
    """),
    "zsh": (["zsh", "-f", "-i"], """
        fpath=(TREE/share/zsh/site-functions $fpath)
        autoload -Uz compinit
        compinit -D
        line() { print -rn -- "$BUFFER|" > line }
        zle -N line
        bindkey '^T' line
        bindkey '^U' kill-whole-line
    """),
    "fish": (["fish", "--private", "-i"], """
        bind \\ct 'printf "%s|" (commandline) > line'
        bind \\cu 'commandline ""'
    """),
}
# Without this folder fish starts to generate completions from all manual pages, in a process that
# outlives the shell.
GENERATED = ".local/share/fish/generated_completions"
PATIENCE = 20  # seconds
CLEAR, LINE = "\x15", "\x14"


class Shell:
    """An interactive shell on a terminal of its own, in an empty folder with two schedules."""

    def __init__(self, name, tree, folder):
        words, told = SHELLS[name]
        self.line = folder / "line"
        self.process, self.terminal = pty.fork()
        if self.process == 0:
            os.chdir(folder)
            os.execvpe(words[0], words, variables(tree, folder))
        for order in told.replace("TREE", tree).strip().splitlines():
            self.type(order.strip() + "\r")
        self.type("echo begun > begun\r")
        self.wait_for(folder / "begun", "\n")

    def type(self, keys):
        os.write(self.terminal, keys.encode())

    def wait_for(self, file, last):
        """Waits until a file ends with `last`, and returns its text. Drops what the shell shows."""
        until = time.monotonic() + PATIENCE
        while time.monotonic() < until:
            if select.select([self.terminal], [], [], 0.02)[0]:
                os.read(self.terminal, 65_536)
            if file.exists() and file.read_text().endswith(last):
                text = file.read_text()
                file.unlink()
                return text[:-1]
        return "(nothing)"

    def completed(self, typed):
        self.type(CLEAR + typed + "\t" + LINE)
        return self.wait_for(self.line, "|")

    def end(self):
        os.kill(self.process, signal.SIGKILL)
        os.waitpid(self.process, 0)
        os.close(self.terminal)


def variables(tree, folder):
    return {"HOME": str(folder), "XDG_CONFIG_HOME": str(folder), "TERM": "dumb", "LANG": "C.UTF-8",
            "PATH": f"{tree}/bin:/usr/bin:/bin", "XDG_DATA_DIRS": f"{tree}/share:/usr/share"}


@pytest.fixture(scope="module", params=SHELLS)
def shell(request, trees, tmp_path_factory):
    folder = tmp_path_factory.mktemp("shell")
    for file in ("handed-on.schedule", "a.schedule"):
        (folder / file).write_text("lock ticket threads 1\n")
    (folder / GENERATED).mkdir(parents=True)
    shell = Shell(request.param, str(trees["installed"].tree), folder)
    yield shell
    shell.end()


@pytest.mark.parametrize("typed, due", CASES, ids=repr)
def test_tab(shell, typed, due):
    assert shell.completed(typed) == due
