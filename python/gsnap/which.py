"""The command `python3 -m gsnap.which`: prints the path of the program that tools run."""
from __future__ import annotations

import sys

from .data import program
from .errors import NoProgram

if __name__ == "__main__":
    try:
        print(program())
    except NoProgram as error:
        sys.exit(str(error))
