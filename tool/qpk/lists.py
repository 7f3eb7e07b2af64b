"""Header lists that a program logged without the bytes of QPACK: of qlog, HAR and net logs. qpk-capture reads it."""

import json
import re
from typing import Any, Dict, Iterator, List, NamedTuple, Tuple
from urllib.parse import unquote

from qpk.lines import ENDS
from qpk.main import printable
from qpk.streams import SourceError, to_bytes

ESCAPED = "%ESCAPED:\u200b "  # before a line of a net log whose bytes above ASCII are written as in addresses
MOST_LISTS = 1 << 20  # that are kept; others are left out
HOST_OF_URL = re.compile(r"[a-z]+://([^/?#]*)", re.IGNORECASE)


class HeaderList(NamedTuple):
    """A list of fields, the stream that it is of, the mark of the end that sent it, and what the log calls its connection."""

    mark: str
    stream: int
    fields: List[Tuple[str, str]]
    connection: str = ""

    def line(self) -> str:
        """Returns it as text, of several lines."""
        rows = [f"  {printable(name)}: {printable(value)}\n" for name, value in self.fields]
        return f"{self.mark} stream {self.stream}: fields {len(self.fields)}\n{''.join(rows)}"

    def object(self) -> Dict[str, Any]:
        """Returns it as an object of JSON."""
        fields = [{"name": name, "value": value} for name, value in self.fields]
        return {"from": ENDS[self.mark], "stream": self.stream, "fields": fields}


class OnlyLists(SourceError):
    """There are header lists, and no bytes of QPACK."""

    def __init__(self, lists: List[HeaderList]) -> None:
        number = len(lists)
        self.lists, self.found = lists, f"it has {number} header list{'s' if number != 1 else ''} and no QPACK bytes"
        super().__init__(
            f"{self.found}: `qpk show` lists them, and `qpk stats --try 0,4096` encodes them; for the bytes capture its packets,"
            " or have the program that wrote it log raw bytes"
        )


def fields_of_lines(lines: Any) -> List[Tuple[str, str]]:
    """Returns the fields of lines `name: value`, or of objects with a name and a value."""
    fields = []
    for it in lines if isinstance(lines, list) else ():
        if isinstance(it, str):
            it = unquote(it[len(ESCAPED) :]) if it.startswith(ESCAPED) else it
            name, _, value = it[1:].partition(": ")
            fields.append((it[:1] + name, value))
        elif isinstance(it, dict) and isinstance(it.get("name"), str):
            fields.append((it["name"], str(it.get("value", ""))))
    return fields


def is_har(value: Any) -> bool:
    """Whether a value of JSON is a HAR, as browsers write it."""
    return isinstance(value, dict) and isinstance(value.get("log"), dict) and isinstance(value["log"].get("entries"), list)


def lists_of_har(value: Dict[str, Any]) -> Iterator[HeaderList]:
    """Yields the header lists of a HAR: of each entry the request's and the response's."""
    for number, entry in enumerate(value["log"]["entries"]):
        for mark, part in ((">", "request"), ("<", "response")):
            it = entry.get(part) if isinstance(entry, dict) else None
            fields = fields_of_lines(it.get("headers")) if isinstance(it, dict) else []
            if fields:
                yield HeaderList(mark, 4 * number, [(name.lower(), value) for name, value in fields], connection_of(entry))


def connection_of(entry: Dict[str, Any]) -> str:
    """Returns what an entry of a HAR tells of its connection: the host, and a number if the browser gave one."""
    request = entry.get("request")
    address = str(request.get("url", "")) if isinstance(request, dict) else ""
    host = HOST_OF_URL.match(address)
    return ", ".join(it for it in (host[1] if host else "", str(entry.get("connection") or "")) if it)


def written_lists(lists: List[HeaderList], is_json: bool) -> Iterator[bytes]:
    """Yields what show prints of header lists."""
    for it in lists:
        yield to_bytes(json.dumps(it.object(), separators=(",", ":")) + "\n" if is_json else it.line())
