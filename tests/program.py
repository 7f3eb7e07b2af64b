"""The program qpk of dist/, for tests that ask it often: it is built in a folder for temporary files, or else it is ./qpk."""
import subprocess
import tempfile
from pathlib import Path

from running import TOP, missing_tool

BUILT = tempfile.TemporaryDirectory(prefix="h3-qpack-program-")
PROGRAM = TOP / "qpk" if missing_tool() else Path(BUILT.name) / "qpk"


def build():
    """Builds the program, if that is possible."""
    if PROGRAM.parent != TOP:
        subprocess.run(["make", "-s", "-C", str(TOP / "dist"), f"BUILD={BUILT.name}", str(PROGRAM)], check=True)
