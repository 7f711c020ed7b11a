"""The notes of a lock that differs from the published one hide no mistake from free threads."""
import re

import pytest

from recorders import SOURCES, compile_c
from tree import output, ran

pytestmark = pytest.mark.slow

SET = re.compile(r"\n\s*node->locked = true;")


@pytest.mark.parametrize("is_set, due", [(True, 0), (False, 1)])
def test_lock_without_the_store_of_its_flag(judge, tmp_path, is_set, due):
    """Without it a waiting thread enters beside the holder. The note after the swap has what the
    word holds, and so the published lock does not agree."""
    [header] = re.findall(r"\S+/spinlock/mcs\.h", output(
        "gcc", "-M", "-DLR_MODE=VALUES", SOURCES / "ck_mcs.c"))
    text = open(header, encoding="utf-8").read()
    assert len(SET.findall(text)) == 2
    (tmp_path / "spinlock").mkdir()
    (tmp_path / "spinlock" / "mcs.h").write_text(text if is_set else SET.sub("", text))
    assert compile_c("gcc", SOURCES / "ck_mcs.c", tmp_path / "it", "-DLR_MODE=VALUES",
                     "-I", tmp_path) == ""
    done = ran(tmp_path / "it", 4, 300, 1, tmp_path / "logs")
    assert (done.stderr, done.returncode) == ("", 0)
    assert judge.order(tmp_path / "logs")[1] == due
