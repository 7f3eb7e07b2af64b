#!/usr/bin/env python3
"""Records what the example server writes to Chromium and to Firefox, and what their decoders answer: tests/browsers/record.py.

For each browser writes crates/qpack_tests/data/heard_NAME.txt, in the lines of tests/recorded.py, and heard_NAME.qif, the lists
that these sections encode. The page is that of check.py with no request aborted, and each list is compared as there. Run it
where the encoder chooses otherwise, over a dist/ that was generated. It needs what check.py needs, and both browsers.
"""
import shutil
import sys
import tempfile
from pathlib import Path

from browsers import BROWSERS
from check import DECODER_STREAM, ENCODER_STREAM, PAGES, SERVER, build, compare, make_certificate, read_events, run
from nghttp3 import Failure
from processes import new_folder

sys.path.insert(0, str(Path(__file__).resolve().parents[1]))
from asked import DATA  # pylint: disable=wrong-import-position # tests/asked.py
from recorded import ANSWERS_CAPACITY  # pylint: disable=wrong-import-position # tests/recorded.py

OPTIONS = ["--encoder-capacity", str(ANSWERS_CAPACITY), "--blocked", "100"]
ABORTED = ("ABORTED = 20", "ABORTED = 0")


def write_page(folder):
    """Writes the page, with no request aborted, and returns its folder."""
    shutil.copytree(PAGES, folder)
    script = folder / "test.js"
    text = script.read_text(encoding="utf-8")
    if text.count(ABORTED[0]) != 1:
        raise Failure(f"test.js lacks {ABORTED[0]}")
    script.write_text(text.replace(*ABORTED), encoding="utf-8")
    return folder


def lines_of(events, number):
    """Returns the lines of the recording of a connection."""
    for event in events:
        if event["connection"] != number:
            continue
        if event["event"] == "section sent":
            yield f"b\t{event['id']}\t{event['hex']}"
        elif event["event"] == "sent" and event["type"] == ENCODER_STREAM:
            yield f"e\t{event['hex']}"
        elif event["event"] == "received" and event["type"] == DECODER_STREAM:
            yield f"d\t{event['hex']}"


def texts_of(events, number):
    """Returns the lists of fields that the sections of a connection encode, as a corpus has them."""
    for event in events:
        if event["connection"] == number and event["event"] == "section sent":
            yield "".join(f"{name}\t{value}\n" for name, value in event["fields"]) + "\n"


def record(browser, program, certificates, key, pages):
    """Runs a browser and writes its files. Returns what was compared."""
    with new_folder() as room:
        report = run(browser, program, certificates, key, OPTIONS, room, pages=pages)
        events = read_events(f"{room}/log")
        compared = compare(browser, report, events, room)
    # The first connection is that of the page; a browser may open another for its report, or none.
    number = min(event["connection"] for event in events if event["event"] == "section sent")
    name = DATA / f"heard_{browser.name.lower()}"
    name.with_suffix(".txt").write_text("".join(f"{line}\n" for line in lines_of(events, number)), encoding="ascii")
    name.with_suffix(".qif").write_text("".join(texts_of(events, number)), encoding="utf-8")
    return compared


def main():
    with tempfile.TemporaryDirectory() as name:
        folder = Path(name)
        key = make_certificate(name)
        pages, program = write_page(folder / "pages"), build(str(folder / "build"), SERVER)
        for browser in BROWSERS:
            print(f"tests/browsers/record.py: {browser.name}: {record(browser, program, name, key, str(pages))}", flush=True)
    return 0


if __name__ == "__main__":
    sys.exit(main())
