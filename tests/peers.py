#!/usr/bin/env python3
"""Holds what qpk check says of the recordings of tests/peers to what their first lines say.

    tests/peers.py

They are the reproducers of docs/PEERS.md. A first line names a section of a standard, and a second one that begins with
"Lawful" asks that nothing be found. Else that section must be in the only finding. The document must name each file of the
folder. It ends with a line 'peers: N tests .. passed', and with status 1 if a test failed.
"""
import json
import re
import subprocess
import sys

from program import PROGRAM, build
from running import TOP, run_tests

FOLDER = TOP / "tests" / "peers"
DOCUMENT = TOP / "docs" / "PEERS.md"
# The section of RFC 9204 that a finding has where the recording names one of RFC 7541: strings are those of HPACK.
BY_HPACK = "4.1.2"


def findings_of(text):
    """Returns the findings of qpk check of a recording."""
    ran = subprocess.run([PROGRAM, "check", "--json", "-"], input=text, stdout=subprocess.PIPE, text=True, check=False)
    return [it for it in map(json.loads, ran.stdout.splitlines()) if "fault" in it]


def comments_of(text):
    """Returns the lines of comments at the front of a recording."""
    return [it[2:] for it in text.splitlines() if it.startswith("# ")]


def test_verdicts():
    recordings = sorted(FOLDER.glob("*.txt"))
    assert len(recordings) >= 6, recordings
    for path in recordings:
        text = path.read_text(encoding="ascii")
        comments = comments_of(text)
        is_lawful = any(it.startswith("Lawful") for it in comments)
        found = findings_of(text)
        assert len(found) == (0 if is_lawful else 1), (path.name, found)
        standard, section = re.match(r"(RFC \d+), (?:section ([\d.]+)|appendix A)", comments[0]).groups()
        if not is_lawful:
            expected = section if standard == "RFC 9204" else BY_HPACK
            assert found[0]["rfc9204"] == expected, (path.name, found)


def test_static_entries():
    """The recording about nginx has the entries that differ there, as the static table has them."""
    text = (FOLDER / "nginx-static.txt").read_text(encoding="ascii")
    ran = subprocess.run([PROGRAM, "show", "--json", "-"], input=text, stdout=subprocess.PIPE, text=True, check=True)
    lines = json.loads(ran.stdout)["lines"]
    assert [it["form"]["index"] for it in lines] == [52, 57, 58, 62, 85], lines
    assert all("; " in it["value"] for it in lines), lines


def test_document():
    said = DOCUMENT.read_text(encoding="utf-8")
    for path in sorted(FOLDER.iterdir()):
        assert path.name in said or path.name.startswith("ls_qpack-") and f"`{path.stem[9:]}`" in said, path.name


if __name__ == "__main__":
    build()
    sys.exit(run_tests(globals(), "peers", "the recordings of tests/peers"))
