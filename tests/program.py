"""The program that the checks in checks/ and long/ run."""
import functools
import os
import subprocess
import sys

ROOT = os.path.dirname(os.path.dirname(os.path.realpath(__file__)))

# The program that GSNAP names, or the launcher.
GSNAP = os.path.realpath(os.environ.get("GSNAP") or f"{ROOT}/gsnap")

# After so many seconds a run has hung. Under load the longest takes a minute or two.
PATIENCE = 600


def end_without(what):
    """Ends a check that cannot do its work, as one failure. `what` says what is missing."""
    print(f"{what}\n0 passed, 1 failed")
    sys.exit(1)


@functools.cache
def binary():
    """Returns the program itself, also if GSNAP is not set: the launcher is a script, which takes memory and files of its own."""
    if os.environ.get("GSNAP"):
        return GSNAP
    which = 'root=$1; source "$root/release/sources"; folder_to_run "$(sum_of_sources gsnap)"'
    ran = subprocess.run(["bash", "-c", which, "bash", ROOT], capture_output=True, text=True, check=True)
    return f"{ran.stdout.strip()}/gsnap"


if not os.access(GSNAP, os.X_OK):
    end_without(f"there is no program {GSNAP}")
