"""Signals that ask a tool to end."""
from __future__ import annotations

import subprocess
import sys
from pathlib import Path

import pytest

PACKAGE = Path(__file__).resolve().parents[1]
ENDED = """
import os, signal
from gsnap.endings import delayed
with delayed():
    os.kill(os.getpid(), signal.SIGTERM)
    print("kept", flush=True)
    if {is_second}:
        os.kill(os.getpid(), signal.SIGTERM)
    print("whole", flush=True)
print("never")
"""


@pytest.mark.parametrize(("is_second", "said"), [(False, "kept\nwhole\n"), (True, "kept\n")])
def test_a_signal_is_kept_and_a_second_one_is_not(is_second: bool, said: str) -> None:
    words = [sys.executable, "-B", "-c", ENDED.format(is_second=is_second)]
    ran = subprocess.run(words, cwd=PACKAGE, capture_output=True, text=True, check=False)
    assert (ran.returncode, ran.stdout, ran.stderr) == (143, said, "")
