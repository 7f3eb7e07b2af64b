"""The events of a connection as the page has them: a row each, and each text once.

A row is a text of JSON, an array whose first member says what it is:

    ["c", HEX, OFFSET, CAPACITY, EVICTED]                   set capacity; EVICTED counts the entries evicted up to there
    ["i", HEX, OFFSET, NAME, FIELD, SIZE, EVICTED]          insert; NAME is that of static N, or dynamic -2 - N, or -1
    ["d", HEX, OFFSET, INDEX, FIELD, SIZE, EVICTED]         duplicate
    ["a", HEX, OFFSET, NUMBER], and so x and n              acknowledge, cancel and increment
    ["s", HEX, STREAM, REQUIRED, BASE, LINES, ARRIVAL]      a section; REQUIRED is -1 where its prefix can't be read
    ["b", HEX, STREAM, UNTIL]                               a section that is blocked
    ["t", HEX, TITLE, DIRECTION, STREAM]                    anything else

A line of a section is 2 * (base - N) where it is entry N, and else 2 * S + 1 for shape S: a form and a field. The bytes of
its lines follow one another, in parentheses where they are not one byte.
"""

import json
from typing import Any, Dict, Iterator, List, Optional, Sequence, Set, Tuple

from .connection import Event, size_of
from .lines import MOST_KEPT, Field, Lines, Object, Shape
from .texts import shown_field, title_of

# The page has the first events that are not more than these, and says so.
MOST_ROWS = 4_000_000  # events and lines
MOST_BYTES = 64 << 20  # of events, and of fields, each once
ANSWERS = {"acknowledge": "a", "cancel": "x", "increment": "n"}


class Texts:
    """The fields and the shapes of lines of all connections, each once."""

    def __init__(self) -> None:
        self.fields: Dict[Field, int] = {}
        self.shapes: Dict[Tuple[str, Field], int] = {}  # by their forms in words
        self.firsts: List[Shape] = []  # the first one of each
        self.codes: Dict[Shape, int] = {}  # of lines of the shapes that are kept
        self.room_of_rows, self.room_of_bytes = MOST_ROWS, MOST_BYTES

    def field(self, field: Field) -> int:
        """Returns the number of a field."""
        number = self.fields.setdefault(field, len(self.fields))
        if number == len(self.fields) - 1:
            self.room_of_bytes -= field.length
        return number

    def code(self, it: Shape) -> int:
        """Returns the code of a line of a shape, which is not of the dynamic table."""
        number = self.shapes.setdefault((it.form.words, it.field), len(self.shapes))
        if number == len(self.firsts):
            self.firsts.append(it)
            self.field(it.field)
        if len(self.codes) >= MOST_KEPT:
            self.codes.clear()
        self.codes[it] = 2 * number + 1
        return 2 * number + 1

    def data(self) -> Dict[str, Any]:
        """Returns all of them, in columns."""
        return {
            "fields": [shown_field(it) for it in self.fields],
            "shapes": {
                "hows": [it.how for it in self.firsts],
                "forms": [text for text, _ in self.shapes],
                "entries": [it.entry or 0 for it in self.firsts],
                "fields": [self.fields[field] for _, field in self.shapes],
            },
        }


class Columns:
    """Makes the rows of a connection, event by event, and keeps no event but those in lines with a finding."""

    def __init__(self, texts: Texts, wanted: Set[int], packets: Sequence[int] = ()) -> None:
        self.texts, self.wanted = texts, wanted
        self.packets = packets  # of a capture, by its lines
        self.rows: List[str] = []
        self.number_of_events = 0
        self.events: List[Event] = []  # in lines that are wanted
        self.waiting: Dict[Tuple[str, Optional[str]], Tuple[int, Event, str]] = {}  # for their bytes, and what follows these
        self.records: List[Tuple[int, str, Optional[str], Optional[int]]] = []  # a line, its end, its time and its packet
        self.sizes: List[int] = []  # how many events each of these has
        self.refused: Dict[int, str] = {}
        self.rest: Dict[int, str] = {}

    def take(self, event: Event) -> None:
        """Makes the row of an event, if there is room."""
        self.number_of_events += 1
        self.texts.room_of_rows -= 1 + len(event.lines.shapes)
        self.texts.room_of_bytes -= len(event.data)
        if self.number_of_events > len(self.rows) + 1 or min(self.texts.room_of_rows, self.texts.room_of_bytes) < 0:
            return
        self.begin_record(event)
        if event.line in self.wanted:
            self.events.append(event)
        if "refused" in event.said:
            self.refused[event.number] = event.said["refused"]
        if event.stream:
            self.take_instruction(event)
        elif "section" in event.said:
            self.rows.append(self.row_of_section(event))
        else:
            self.rows.append(row_of_title(event))

    def begin_record(self, event: Event) -> None:
        """Counts an event in its line of the recording."""
        if not self.records or self.records[-1][0] != event.line:
            packet = self.packets[event.line - 1] if event.line <= len(self.packets) else None
            self.records.append((event.line, event.end, event.said.get("time"), packet))
            self.sizes.append(0)
        self.sizes[-1] += 1

    def take_instruction(self, event: Event) -> None:
        """Makes the row of an instruction. Its bytes are known where the next one of its stream begins, or at the end."""
        key = (event.of, event.stream)
        self.complete(key)
        said = event.said
        if "instruction" not in said or "refused" in said:
            kind, rest = "t", rest_of_title(event)
        elif event.stream == "decoder":
            kind, rest = ANSWERS[said["instruction"]], f"{said['decoder']},{said.get('stream', said.get('by'))}"
        else:
            kind, rest = self.rest_of_instruction(event, said)
        self.waiting[key] = (len(self.rows), event, rest)
        self.rows.append(kind)

    def rest_of_instruction(self, event: Event, said: Object) -> Tuple[str, str]:
        """Returns the kind of an instruction of the encoder stream, and what follows its bytes."""
        if event.field is None:
            return "c", f"{said['encoder']},{said['capacity']},{event.evicted}"
        field, size = self.texts.field(event.field), size_of(event.field)
        kind, source = ("d", said["of"]["index"]) if "of" in said else ("i", source_of(said["name_from"]))
        return kind, f"{said['encoder']},{source},{field},{size},{event.evicted}"

    def complete(self, key: Tuple[str, Optional[str]]) -> None:
        """Completes the row of the last instruction of a stream, whose bytes are known now."""
        if key in self.waiting:
            place, event, rest = self.waiting.pop(key)
            self.rows[place] = f'["{self.rows[place]}","{event.data.hex()}",{rest}]'
            self.texts.room_of_bytes -= len(event.data)

    def row_of_section(self, event: Event) -> str:
        """Returns the row of a section."""
        said, data = event.said, event.data
        if "blocked_until" in said:
            return f'["b","{data.hex()}",{said["section"]},{said["blocked_until"]}]'
        base, shapes = said.get("base", 0), event.lines.shapes
        known, code = self.texts.codes, self.texts.code
        codes = [2 * (base - it.entry) if it.how == "dynamic" else known.get(it) or code(it) for it in shapes]  # type: ignore[operator]
        arrival = f",{event.arrival.number}" if event.arrival else ""
        if "refused" in said and shapes:
            self.rest[event.number] = data[said["offset"] :].hex()
            data = data[: said["offset"]]
        head = f'{said["section"]},{said.get("required_insert_count", -1)},{base}'
        return f'["s","{grouped(data, event.lines)}",{head},[{",".join(map(str, codes))}]{arrival}]'

    def finish(self) -> None:
        """Completes the rows, once all events were taken."""
        for key in list(self.waiting):
            self.complete(key)

    def parts(self) -> Iterator[str]:
        """Yields the text of JSON of all, in parts."""
        lines, ends, times, packets = ([*it] for it in zip(*self.records)) if self.records else ([], [], [], [])
        steps = [line - before for line, before in zip(lines, [0, *lines])]
        columns: Dict[str, Any] = {"lines": steps, "sizes": self.sizes}
        columns["ends"] = "".join({"client": ">", "server": "<", "": " "}[it] for it in ends)
        for name, column in (("times", times), ("packets", packets)):
            columns[name] = column if any(it is not None for it in column) else None
        found = {"records": columns, "refused": self.refused, "rest": self.rest}
        yield json.dumps(found, separators=(",", ":"))[:-1] + ',"events":['
        yield ",\n".join(self.rows)
        yield "]}"


def source_of(names: Dict[str, Any]) -> int:
    """Returns where an insertion has its name, as a number."""
    if names["type"] == "literal":
        return -1
    index: int = names["index"]
    return index if names["type"] == "static" else -2 - index


def row_of_title(event: Event) -> str:
    """Returns the row of what is neither an instruction nor a section."""
    return f'["t","",{rest_of_title(event)}]'


def rest_of_title(event: Event) -> str:
    """Returns the title of an event, whose encoder it is about, and its stream."""
    stream = event.said.get("given_up", -1)
    return f"{json.dumps(title_of(event))},{int(event.of == 'server')},{stream}"


def grouped(data: bytes, lines: Lines) -> str:
    """Returns the bytes of a section up to the end of its lines, in groups: its prefix, and each line."""
    digits = data.hex()
    if not lines.shapes:
        return f"({digits})"
    begin = len(data) - len(lines.shapes)  # where the lines begin if each has one byte
    if lines.texts[0].startswith(b"%d," % begin):
        return f"({digits[: 2 * begin]}){digits[2 * begin :]}"
    begin, *ends = lines.offsets()
    groups, done = [f"({digits[: 2 * begin]})"], begin
    for end in [*ends, len(data)]:
        if end != begin + 1:
            groups += [digits[2 * done : 2 * begin], f"({digits[2 * begin : 2 * end]})"]
            done = end
        begin = end
    return "".join([*groups, digits[2 * done :]])
