"""A text of a picture that is too long for its room is cut, and as much of it is shown as has
room: with one letter more it would not fit."""
import pytest

NAME = "Bartholomew Featherstonehaugh-Cholmondeley the Second"
NAMES = f"#! name 0 {NAME}\n#! name 1 {NAME[::-1]}\n"
RECORDS = (f"{NAMES}lock mcs threads 2\n0 acquire\n0 write\n0 swap\n1 acquire\n1 write\n1 swap\n"
           "1 write\n1 write\n")


@pytest.mark.parametrize("look", ["", "&hall&show=time,memory"])
@pytest.mark.parametrize("kind", [
    "#memory-picture .value", "#memory-picture .record .name", "#lanes .lane-name"])
def test_long_names(page, look, kind):
    """Both names are cut: as values, in heads and beside lanes. Letters of a hall are larger."""
    page.open(f"#lesson=mcs-late-link&move=0{look}").show(RECORDS, 8)
    assert page.js("cutOf", kind) == [[True, True, False]] * 2
