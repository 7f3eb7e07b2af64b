"""Where the parts of the tool lie. An install has the folders tool and dist beside each other, as the repository does."""

import os
from pathlib import Path

SCRIPTS = Path(__file__).resolve().parent.parent  # of qpk-capture and qpk-report
TOP = SCRIPTS.parent
DIST = TOP / "dist"  # of the program that is installed, its module for WebAssembly, and what builds them


def find_program() -> str:
    """Returns the program that the variable QPK names, or else the one that is installed, or else the one in PATH."""
    installed = DIST / "qpk"
    return os.environ.get("QPK") or (str(installed) if os.access(installed, os.X_OK) else "qpk")
