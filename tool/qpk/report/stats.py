"""qpk stats: what QPACK did on a connection, in numbers."""

import tempfile
from array import array
from collections import Counter, defaultdict
from dataclasses import asdict, dataclass, field
from operator import attrgetter, mul
from typing import Any, BinaryIO, Dict, Iterable, Iterator, List, NamedTuple, Optional, Tuple

from . import ReportError
from .connection import Event, Reading, Window, referenced_by
from .lines import MOST_KEPT, Object, Shape
from .recording import pieces_of_records, qpk_on

BLOCKS = "▁▂▃▄▅▆▇█"
BLOCKS_OF_ASCII = "_.,-=+*#"
MOST_BLOCKS = 72  # in a line of text
PREFIX = 2  # bytes of that of a section without a dynamic table (RFC 9204, section 4.5.1)
IS_IN_QIF = attrgetter("is_in_qif")
NAMES = {  # of what a line has from where
    "static": "static",
    "dynamic": "dynamic",
    "static-name": "name static",
    "dynamic-name": "name dynamic",
    "literal": "literal",
}


class Fields:
    """How often fields are in lists, and each in QIF, to be encoded once without a dynamic table."""

    def __init__(self) -> None:
        self.qif: BinaryIO = tempfile.TemporaryFile()  # a list for each
        self.times = array("Q")

    def add(self, it: Shape, times: int) -> None:
        """Adds the field of a shape."""
        self.qif.write(b"%b\t%b\n\n" % it.field)
        self.times.append(times)

    def size(self, lists: int) -> int:
        """Returns the bytes of the sections of that many lists, as qpk encodes each field without a dynamic table: there it
        writes a line of each, whatever is beside it."""
        self.qif.seek(0)
        with qpk_on(["encode", "--qif", "0", "0", "0"], self.qif) as records:
            sizes = [len(it.data) - PREFIX for it in pieces_of_records(records) if it.kind == "b"]
        if len(sizes) != len(self.times):
            raise ReportError(f"qpk encoded {len(sizes)} of {len(self.times)} lists")
        return PREFIX * lists + sum(map(mul, sizes, self.times))


class ListBytes(NamedTuple):
    """What a list took: its section, and the instructions of the encoder stream since the list before it."""

    event: int  # the number of its event
    line: int
    section: int
    instructions: int


@dataclass
class Numbers:
    """The numbers of a direction. Bytes of lists are those of names and values."""

    sections: int  # that were decoded whole
    sections_not_decoded: int
    fields: int
    list_bytes: int
    section_bytes: int
    encoder_stream_bytes: int
    decoder_stream_bytes: int
    hits: Dict[str, int]  # lines, by how they have their field
    without_table_bytes: int  # of the same lists, as qpk encode writes them without a dynamic table
    saved_bytes: int
    lists_not_counted: int  # in these two
    insertions: int
    never_referenced: int
    duplicates: int
    evictions: int
    blocked_sections: int
    blocked_lines: int
    blocked_seconds: Optional[float]
    bytes_of_lists: List[int]

    @property
    def taken_bytes(self) -> int:
        """What the sections and the encoder stream took."""
        return self.section_bytes + self.encoder_stream_bytes

    @property
    def average_bytes(self) -> float:
        """What a list took, with its share of the encoder stream."""
        return self.taken_bytes / self.sections if self.sections else 0.0

    @property
    def ratio(self) -> float:
        """What was taken of the bytes of the lists."""
        return self.taken_bytes / self.list_bytes if self.list_bytes else 0.0


@dataclass
class Counting:
    """Counts what QPACK did in a direction, event by event, and keeps no event."""

    settings: Optional[Object] = None  # for this encoder, if they are in the recording
    sections_not_decoded: int = 0
    fields: int = 0
    list_bytes: int = 0
    hits: Dict[str, int] = field(default_factory=lambda: dict.fromkeys(NAMES, 0))
    lists_not_counted: int = 0
    counted_bytes: int = 0  # of the sections of the others
    lines: "Counter[Shape]" = field(default_factory=Counter)  # of the others, since it was counted how they have their fields
    without_table: Fields = field(default_factory=Fields)  # of the others
    referenced: bytearray = field(default_factory=bytearray)  # 1 for each entry that is
    duplicates: int = 0
    blocked_sections: int = 0
    arrivals: int = 0  # of the blocked sections that were read later
    blocked_lines: int = 0
    blocked_seconds: Optional[float] = 0.0
    lists: List["array[int]"] = field(default_factory=lambda: [array("Q") for _ in ListBytes._fields])
    instructions: int = 0  # their bytes since the last list
    last: Optional[int] = None  # the offset of the last instruction, whose end is not known yet
    list_after: Optional[int] = None  # the place of the first list after it

    def take(self, event: Event) -> None:
        """Counts an event."""
        said = event.said
        if "section" in said:
            self.take_section(event)
        elif event.stream == "encoder":
            self.take_instruction(event)
        elif "max_capacity" in said:
            self.settings = self.settings or said

    def take_instruction(self, event: Event) -> None:
        """Counts an instruction of the encoder stream."""
        said = event.said
        self.end_instruction(said["encoder"])
        if "instruction" not in said or "refused" in said:
            return
        self.last = said["encoder"]
        if event.field:
            self.duplicates += said["instruction"] == "duplicate"
            entry = referenced_by(said)
            if entry is not None:
                self.referenced[entry - 1] = 1
            self.referenced.append(0)

    def end_instruction(self, offset: int) -> None:
        """Counts the bytes of the last instruction, which end at an offset."""
        size = 0 if self.last is None else offset - self.last
        if self.list_after is None:
            self.instructions += size
        else:
            self.lists[-1][self.list_after] += size
        self.last, self.list_after = None, None

    def take_section(self, event: Event) -> None:
        """Counts a section: one that is blocked, refused or decoded."""
        if event.arrival:
            self.take_arrival(event, event.arrival)
        self.blocked_sections += "blocked_until" in event.said and "refused" not in event.said
        if not event.is_list:
            self.sections_not_decoded += 1
            self.refer(event.lines.shapes)
            return
        if self.last is not None and self.list_after is None:
            self.list_after = len(self.lists[0])
        taken = ListBytes(event.number, event.line, len(event.data), self.instructions)
        for numbers, it in zip(self.lists, taken):
            numbers.append(it)
        self.instructions = 0
        self.take_lines(event)

    def take_arrival(self, event: Event, arrival: Event) -> None:
        """Counts how long a section was blocked. Its arrival is no section of its own."""
        self.sections_not_decoded -= 1
        self.arrivals += 1
        self.blocked_lines += event.line - arrival.line
        begin, end = arrival.seconds, event.seconds
        if begin is None or end is None or self.blocked_seconds is None:
            self.blocked_seconds = None
        else:
            self.blocked_seconds += end - begin

    def take_lines(self, event: Event) -> None:
        """Counts the lines of a list: those of most lists together later, those of one that QIF can't have now."""
        shapes = event.lines.shapes
        if not all(map(IS_IN_QIF, shapes)):
            self.lists_not_counted += 1
            self.count(Counter(shapes))
            return
        self.counted_bytes += len(event.data)
        self.lines.update(shapes)
        if len(self.lines) > MOST_KEPT:
            self.count_lines()

    def count_lines(self) -> None:
        """Counts the lines that wait for it."""
        self.count(self.lines)
        for it, times in self.lines.items():
            self.without_table.add(it, times)
        self.lines.clear()

    def count(self, lines: "Counter[Shape]") -> None:
        """Counts how lines have their fields."""
        for it, times in lines.items():
            self.fields += times
            self.hits[it.how] += times
            self.list_bytes += times * it.field.length
        self.refer(lines)

    def refer(self, shapes: Iterable[Shape]) -> None:
        """Notes which entries lines reference."""
        for it in shapes:
            if it.entry is not None:
                self.referenced[it.entry - 1] = 1

    def bytes_of_lists(self) -> Iterator[ListBytes]:
        """Yields what each list took, in the order in which they were decoded."""
        return map(ListBytes, *self.lists)

    def numbers(self, encoder_bytes: int, decoder_bytes: int, evictions: int) -> Numbers:
        """Returns the numbers, once all events were counted, with the bytes of the two streams, and the evictions."""
        self.end_instruction(encoder_bytes)
        self.count_lines()
        sections = len(self.lists[0])
        without = self.without_table.size(sections - self.lists_not_counted)
        is_timed = self.arrivals > 0 and self.blocked_seconds is not None
        return Numbers(
            sections=sections,
            sections_not_decoded=self.sections_not_decoded,
            fields=self.fields,
            list_bytes=self.list_bytes,
            section_bytes=sum(it.section for it in self.bytes_of_lists()),
            encoder_stream_bytes=encoder_bytes,
            decoder_stream_bytes=decoder_bytes,
            hits=self.hits,
            without_table_bytes=without,
            saved_bytes=without - self.counted_bytes - encoder_bytes,
            lists_not_counted=self.lists_not_counted,
            insertions=len(self.referenced),
            never_referenced=self.referenced.count(0),
            duplicates=self.duplicates,
            evictions=evictions,
            blocked_sections=self.blocked_sections,
            blocked_lines=self.blocked_lines,
            blocked_seconds=round(self.blocked_seconds or 0.0, 9) if is_timed else None,
            bytes_of_lists=[it.section + it.instructions for it in self.bytes_of_lists()],
        )


class Count:
    """Counts what QPACK did on a connection, by the end of each direction."""

    def __init__(self) -> None:
        self.directions: Dict[str, Counting] = defaultdict(Counting)

    def take(self, event: Event) -> None:
        """Counts an event."""
        self.directions[event.of].take(event)

    def numbers(self, reading: Reading) -> Iterator[Tuple[str, Counting, Numbers]]:
        """Yields each direction with its numbers, once all events were counted."""
        for end in reading.ends():
            counting = self.directions[end]
            sizes = [reading.stream(end, name).size for name in ("encoder", "decoder")]
            yield end, counting, counting.numbers(*sizes, reading.windows.get(end, Window()).evicted)


# ---- What is printed


def as_object(end: str, numbers: Numbers) -> Dict[str, Any]:
    """Returns the numbers of a direction as an object for JSON."""
    head = {"from": end} if end else {}
    hits = {how.replace("-", "_"): number for how, number in numbers.hits.items()}
    means = {"average_bytes": round(numbers.average_bytes, 3), "ratio": round(numbers.ratio, 4)}
    found = {**head, **asdict(numbers), "hits": hits, **means}
    return {name: value for name, value in found.items() if value is not None}


def rows(numbers: Numbers) -> Iterator[Tuple[str, str]]:
    """Yields the rows of the text: what is counted, and the number."""
    it = numbers
    lost = f"; not decoded {it.sections_not_decoded}" if it.sections_not_decoded else ""
    yield "sections", f"{it.sections}; fields in them {it.fields}{lost}"
    yield "names and values", f"{it.list_bytes} bytes"
    yield "sections took", f"{it.section_bytes} bytes"
    yield "the encoder stream took", f"{it.encoder_stream_bytes} bytes"
    yield "a list took", f"{it.average_bytes:.1f} bytes, {it.ratio:.3f} of its names and values"
    yield "fields", ", ".join(f"{NAMES[how]} {number}" for how, number in it.hits.items())
    lost = f"; lists not counted {it.lists_not_counted}" if it.lists_not_counted else ""
    yield "without a dynamic table", f"{it.without_table_bytes} bytes; saved {it.saved_bytes}{lost}"
    yield "insertions", f"{it.insertions}; duplicates {it.duplicates}, never referenced {it.never_referenced}"
    yield "evictions", f"{it.evictions}"
    seconds = "" if it.blocked_seconds is None else f", seconds {it.blocked_seconds:.6f}"
    waited = f"; lines waited {it.blocked_lines}{seconds}" if it.blocked_sections else ""
    yield "blocked sections", f"{it.blocked_sections}{waited}"
    yield "the decoder stream took", f"{it.decoder_stream_bytes} bytes"


def parts_of(numbers: List[Any], most: int) -> Iterator[List[Any]]:
    """Yields numbers in parts of about the same length, as many as there are numbers, or the most."""
    width = min(len(numbers), most)
    for place in range(width):
        yield numbers[place * len(numbers) // width : (place + 1) * len(numbers) // width]


def blocks(numbers: List[int], signs: str) -> str:
    """Returns a line of blocks, as high as the numbers. Those of a long list are averages."""
    means = [sum(part) / len(part) for part in parts_of(numbers, MOST_BLOCKS)]
    most = max(means, default=0) or 1
    return "".join(signs[min(len(signs) - 1, int(len(signs) * it / most))] for it in means)


def print_numbers(end: str, numbers: Numbers, is_unicode: bool) -> None:
    """Prints the numbers of a direction as text."""
    print(f"{end}'s lists" if end else "lists")
    for name, text in rows(numbers):
        print(f"  {name:<24}{text}")
    if numbers.bytes_of_lists:
        line = blocks(numbers.bytes_of_lists, BLOCKS if is_unicode else BLOCKS_OF_ASCII)
        print(f"  {'bytes a list, in order':<24}{line} {min(numbers.bytes_of_lists)} to {max(numbers.bytes_of_lists)}")
