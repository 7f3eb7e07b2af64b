#!/usr/bin/env python3
"""Holds qpk check of a capture of 10,000 requests to its bounds of time and memory.

    tool/tests/bounds.py                 # prints what it took
    tool/tests/bounds.py --make FILE     # writes the capture alone, with its keys

The capture is made: each line of a recording that qpk encodes is a packet. Without libcrypto nothing is tested. It ends with a
line 'bounds: N tests .. passed', and with status 1 if a test failed.
"""
import subprocess
import sys
import tempfile
from pathlib import Path

from captures import ENVIRONMENT, SCRIPT
from connections import file_of, run_with_libcrypto
from program import PROGRAM, build
from running import TOP, cost_of
from slowness import measure_slowness
from sealed import Made

sys.path.insert(0, str(TOP / "tests" / "browsers"))
import large  # noqa: E402 # pylint: disable=wrong-import-position

REQUESTS = 10_000
SECONDS = 5  # of the processor; a slow one may take as many times longer as it is slower
MEGABYTES = 150


def make(file):
    """Writes the capture."""
    lines = large.recording(str(PROGRAM), REQUESTS).splitlines()
    Path(file).write_bytes(file_of(Made().begin().take(lines)))


def test_10000_requests():
    """Nothing is found, within the bounds. The capture is made by a process of its own, whose memory does not count here."""
    with tempfile.TemporaryDirectory() as room:
        capture, output = Path(room) / "capture.pcapng", Path(room) / "output"
        subprocess.run([sys.executable, __file__, "--make", capture], check=True)
        before = measure_slowness()
        with open(output, "wb") as written:
            seconds, kilobytes = cost_of([SCRIPT, "check", capture], subprocess.DEVNULL, written, env=ENVIRONMENT)
        said = output.read_text("utf-8")
    assert f"nothing found: sections {2 * REQUESTS}, " in said, said[:300]
    print(f"bounds: check of {REQUESTS} requests took {seconds:.1f} s of the processor and {kilobytes // 1024} MB")
    assert seconds <= SECONDS * max(before, measure_slowness()) and kilobytes <= MEGABYTES * 1024


if __name__ == "__main__":
    if sys.argv[1:2] == ["--make"]:
        build()
        make(sys.argv[2])
        sys.exit()
    sys.exit(run_with_libcrypto(globals(), "bounds"))
