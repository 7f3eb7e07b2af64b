"""qpk report: connections as a page of HTML that needs nothing else."""

import base64
import hashlib
import html
import json
import zlib
from pathlib import Path
from typing import Any, Dict, Iterable, Iterator, List, NamedTuple

from .columns import Columns, Texts
from .connection import Finder, Reading
from .lines import Object
from .recording import Recording
from .stats import Count, Counting, Numbers, rows
from .verdict import MOST_FAULTS, Verdict

FOLDER = Path(__file__).resolve().parent
STYLES = ("qpack.css", "report.css")
SCRIPTS = (
    "element.js",
    "connection.js",
    "words.js",
    "list.js",
    "waterfall.js",
    "requests.js",
    "timeline.js",
    "details.js",
    "verdict.js",
    "overview.js",
    "report.js",
)
OWN_DATA = "begin.js"  # fills a page with its data
LEVEL = 4  # of the compression: a third of the time of the usual one
WIDTH = 3 << 18  # bytes that are written at once in base64: three make four characters
LEGEND = {
    "static": "in the static table",
    "dynamic": "in the dynamic table",
    "static-name": "name in the static table, value spelled out",
    "dynamic-name": "name in the dynamic table, value spelled out",
    "literal": "spelled out",
}
HEAD = """<!doctype html>
<html lang="en">
<meta charset="utf-8">
<meta name="viewport" content="width=device-width, initial-scale=1">
<meta name="color-scheme" content="light dark">
<meta http-equiv="content-security-policy" content="default-src 'none'; style-src 'unsafe-inline'; script-src {policy}">
<title>QPACK of {name}</title>
<style>
{style}</style>
<noscript><p>This page needs JavaScript. qpk show prints the same in words.</p></noscript>
<div id="page"></div>
<script type="application/octet-stream" id="data">"""
TAIL = """</script>
{reader}<script>{script}</script>
</html>
"""


class Reader(NamedTuple):
    """What a page has beside its data that reads files: its script, its look, its parts, and what the policy of the page allows it."""

    script: str = ""
    style: str = ""
    parts: str = ""
    policy: str = ""


NO_READER = Reader()


class Data:
    """The data of a page: a text of JSON, compressed as it is made, in base64. No part of HTML can be in that."""

    def __init__(self) -> None:
        self.deflate = zlib.compressobj(LEVEL)
        self.packed = bytearray()
        self.number = 0  # of connections

    def add(self, text: str) -> None:
        """Adds a text."""
        self.packed += self.deflate.compress(text.encode("ascii"))

    def add_connection(self, head: Object, columns: Columns) -> None:
        """Adds a connection."""
        self.add("," if self.number else '{"connections":[')
        self.number += 1
        self.add(as_json(head)[:-1] + ',"trace":')
        for part in columns.parts():
            self.add(part)
        self.add("}")

    def finish(self, texts: Texts) -> Iterator[str]:
        """Ends the data with the texts, and yields all of it."""
        self.add("]," if self.number else '{"connections":[],')
        self.add(as_json({"legend": LEGEND, **texts.data()})[1:])
        self.packed += self.deflate.flush()
        for place in range(0, len(self.packed), WIDTH):
            yield base64.b64encode(self.packed[place : place + WIDTH]).decode()


def as_json(data: Any) -> str:
    """Returns data as JSON of ASCII."""
    return json.dumps(data, separators=(",", ":"))


class PageMaker:
    """Makes a page of recordings, one after another."""

    def __init__(self, reader: Reader = NO_READER) -> None:
        self.reader = reader
        self.texts, self.data = Texts(), Data()
        self.names: List[str] = []
        self.is_refused = False  # something in one of them

    def add(self, recording: Recording) -> None:
        """Adds a recorded connection."""
        verdict, count = Verdict(), Count()
        verdict.take(recording.check())
        columns = Columns(self.texts, {it["line"] for it in verdict.faults}, recording.packets)
        reading = Reading(recording.show(), recording.pieces())
        for event in reading.events():
            count.take(event)
            columns.take(event)
        columns.finish()
        finder = Finder(columns.events)
        head = {
            "name": recording.name,
            "verdict": verdict.data(),
            "faults": [fault_data(it, finder) for it in verdict.faults],
            "left_out": list(left_out(columns, verdict.number)),
            "directions": [direction_data(*it) for it in count.numbers(reading)],
        }
        self.data.add_connection(head, columns)
        self.names.append(recording.name)
        self.is_refused = self.is_refused or reading.is_refused

    def parts(self) -> Iterator[str]:
        """Yields the page, once all were added."""
        script = "\n" + read_all([*SCRIPTS, *([OWN_DATA] if self.names else [])]) + self.reader.script
        hashed = base64.b64encode(hashlib.sha256(script.encode()).digest()).decode()
        name = html.escape(", ".join(self.names) or "a file")
        styles = read_all(STYLES) + self.reader.style
        yield HEAD.format(name=name, style=styles, policy=f"'sha256-{hashed}'{self.reader.policy}")
        if self.names:
            yield from self.data.finish(self.texts)
        yield TAIL.format(script=script, reader=self.reader.parts)


def read_all(names: Iterable[str]) -> str:
    """Returns the text of files of this folder, one after another."""
    return "".join((FOLDER / it).read_text("utf-8") for it in names)


def left_out(columns: Columns, faults: int) -> Iterator[str]:
    """Yields what the page does not show, as there is too much of it."""
    shown, events = len(columns.rows), columns.number_of_events
    if shown < events:
        yield (
            f"This page shows the first {shown} of {events} events, and the tables up to there, as a page has room for no "
            "more. The numbers are those of all events. qpk show prints each event."
        )
    if faults > MOST_FAULTS:
        yield f"This page lists the first {MOST_FAULTS} of {faults} faults. qpk check prints each fault."


def fault_data(finding: Object, finder: Finder) -> Object:
    """Returns what qpk check found, and the number of its event, if the page has that."""
    about = finder.find(finding)
    return {**finding, "event": about.number if about else None}


def direction_data(end: str, counting: Counting, numbers: Numbers) -> Dict[str, Any]:
    """Returns the numbers of a direction."""
    settings = counting.settings
    limits = ""
    if settings:
        limits = f"the decoder allows {settings['max_capacity']} bytes and {settings['max_blocked']} blocked streams"
    return {"end": end, "settings": limits, "rows": list(rows(numbers))}
