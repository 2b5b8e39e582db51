"""What the tools take of the toolchain beyond its commands, and nothing else does.

`rt check` and `rt lib` build anew each library that `rt ci` left in out/, since these have no stamp: proofs of an hour for a check of
a minute. So a check of a copy is called with the words that `rt` itself hands to the prover, over the libraries as they lie. They
come from the toolchain's module rtlib, which is none of its commands: another toolchain may want other words.
"""
import pathlib
import subprocess
import sys


def kit():
    """The folder of the toolchain."""
    return pathlib.Path(subprocess.run(("rt", "doc"), stdout=subprocess.PIPE, text=True).stdout.strip()).parent


def words_of_check(folder, functions):
    """The words of a check of some functions of the crate in a folder, which takes what has a hole for its proof as proved."""
    sys.path.insert(0, str(kit() / "bin"))
    import rtlib

    only = [word for function in functions for word in ("--only", function)]
    crate = next(it for it in rtlib.crates_below(str(folder.parent.parent)) if it.name == folder.name)
    return [rtlib.RATTLE, "check", *crate.words(["--jobs", "1", "--allow-holes", "--short-goals", *only], keeps=False)]


def is_up_to_date(root, crate, below):
    """Whether a library is there, and no source of it or of one below is younger."""
    made = root / "crates" / crate / "out" / "rlib" / f"{crate}.rlib"
    folders = [root / "crates" / name / part for name in [crate, *below] for part in ("src", "specs", "proofs")]
    read = [file for folder in folders for file in folder.rglob("*") if file.is_file()]
    return made.is_dir() and all(file.stat().st_mtime <= made.stat().st_mtime for file in read)
