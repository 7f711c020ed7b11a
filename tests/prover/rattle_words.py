"""The command by which one crate is checked or built over the libraries that are in `out` already.

`rt check` and `rt lib` first prove the libraries below a crate once more, unless they built these
themselves. `make gate` leaves the libraries that it has proved, and what `make test` does after it
is done over them.
"""
import subprocess
from pathlib import Path

TOP = Path(__file__).resolve().parents[2]


def uses_of(crate):
    """Whether a crate is a static library, and the libraries that it uses."""
    for line in (TOP / "crates.txt").open():
        words, _, below = line.split("#")[0].partition(":")
        if words.split()[:1] == [crate]:
            return "staticlib" in words.split(), below.split()
    raise KeyError(crate)


def libraries_below(crate):
    """The libraries of the repository that a crate and those below it use."""
    own = [name for name in uses_of(crate)[1] if (TOP / "crates" / name).is_dir()]
    return set(own).union(*map(libraries_below, own))


def kit_folder():
    """Where the kit is."""
    told = subprocess.run(["rt", "doc"], capture_output=True, text=True, check=True).stdout
    return Path(told).parent


def words_of(verb, crate, kept):
    """The command that checks or builds a crate, in its folder. `kept` is the folder below it in
    which that command keeps its work."""
    kit = kit_folder()
    is_static, uses = uses_of(crate)
    own = libraries_below(crate)
    places = {name: TOP / "crates" / name / "out" / "rlib" if name in own else kit / "rlibs"
              for name in {"std", *uses, *own}}
    folder = TOP / "crates" / crate
    words = [kit / "bin" / "rattle", verb, "--crate-name", crate,
             next(file for file in ("src/lib.rt", "src/main.rt") if (folder / file).exists()),
             "--antt-project", kit / "rattle" / "logic" / "antt-project.json",
             "--logic-built", kit / "logic_built", "--incremental", kept]
    words += [word for name in sorted({"std", *uses})
              for word in ("--extern", f"{name}={places[name]}/{name}.rlib")]
    words += [word for place in sorted({*places.values(), kit / "rlibs"})
              for word in ("-L", f"dependency={place}")]
    return [*words, *(["--crate-type", "staticlib"] if is_static else [])]
