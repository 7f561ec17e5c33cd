"""Makes the package of this repository importable, also without libraries that GSNAP_WITHOUT names.

Tests interrupt themselves. A shell starts what it runs in the background with interrupts ignored, so they are taken here again.
"""
import os
import signal
import sys
from pathlib import Path

signal.signal(signal.SIGINT, signal.default_int_handler)

ROOT = Path(__file__).resolve().parents[2]
sys.path.insert(0, str(ROOT / "python"))
for name in os.environ.get("GSNAP_WITHOUT", "").split():
    sys.modules[name] = None  # type: ignore[assignment]
