"""The files that the package needs: the table of refusals, the ready programs, and the program gsnap itself.

In a clone of the repository they are the repository's own files, so that each has one source. An installed package has
copies of them in its folder `files`, which its build put there.
"""
from __future__ import annotations

import functools
import os
import shutil
import subprocess
from pathlib import Path

from .errors import NoProgram

HERE = Path(__file__).resolve().parent
COPIES = HERE / "files"
CLONE = HERE.parent.parent
# Prints the folder with the program that the launcher of the clone $1 runs.
LAUNCHED = 'root=$1; source "$root/release/sources"; folder_to_run "$(sum_of_sources gsnap)"'
SOURCES = (
    "docs/REFUSALS.md",
    "examples/*.program",
    "examples/cookbook/*.program",
    "release/SOURCES",
    "release/gsnap",
)


@functools.lru_cache(maxsize=None)
def files() -> dict[str, Path]:
    """Returns the path of each file of the package, by the file's name."""
    if COPIES.is_dir():
        found = list(COPIES.iterdir())
    else:
        found = [path for pattern in SOURCES for path in CLONE.glob(pattern)]
    return {path.name: path for path in sorted(found, key=lambda it: it.name)}


def text_of(name: str) -> str:
    """Returns the text of a file of the package, such as "REFUSALS.md" or "components.program".

    FileNotFoundError is raised if the package has no file of this name.
    """
    if name not in files():
        raise FileNotFoundError(f"the package gsnap has no file {name}")
    return files()[name].read_text(encoding="utf-8")


def version() -> str:
    """Returns the version of gsnap, such as "0.1.0"."""
    for line in text_of("SOURCES").splitlines():
        if line.startswith("program: gsnap "):
            return line.rpartition(" ")[2]
    raise ValueError("the file SOURCES does not name the version of gsnap")


@functools.lru_cache(maxsize=None)
def launched() -> Path:
    """Returns the path of the program that the launcher runs: what was built in the clone of its sources, else the release."""
    ran = subprocess.run(["/bin/bash", "-c", LAUNCHED, "bash", CLONE], capture_output=True, text=True, check=False)
    built = Path(ran.stdout.strip(), "gsnap")
    return built if built.is_absolute() else files()["gsnap"]


def own_program() -> Path:
    """Returns the path of the program gsnap of the clone or of the package; NoProgram is raised if it is missing."""
    path = files().get("gsnap")
    if path is not None and path.is_relative_to(CLONE / "release"):
        path = launched()
    if path is None or not os.access(path, os.X_OK):
        raise NoProgram(f"the package has no program gsnap: {path or COPIES / 'gsnap'} is missing or cannot be run")
    return path


def program() -> Path:
    """Returns the path of the program gsnap to run.

    It is the program that the environment variable GSNAP names, else `gsnap` on the path, else the one that the launcher of the
    clone runs, or the package's own. NoProgram is raised if GSNAP names a program that does not exist or cannot be run.
    """
    named = os.environ.get("GSNAP")
    found = shutil.which(named or "gsnap")
    if found is not None:
        return Path(os.path.abspath(found))
    if named:
        raise NoProgram(f"the environment variable GSNAP names {named!r}, and there is no such program")
    return own_program()
