"""qpk table: the dynamic tables at a moment, and the life of an entry."""

from typing import Any, Dict, Iterator, List, Tuple

from . import ReportError
from .connection import Connection, Direction, Entry, Event
from .lines import Object, shown_form
from .texts import place_of, shown_field, title_of


def text_for_json(data: bytes) -> Any:
    """Returns bytes as qpk's JSON has them: a string if they are UTF-8, and else an object whose hex has them."""
    try:
        return data.decode()
    except UnicodeDecodeError:
        return {"hex": data.hex()}


def entry_object(entry: Entry) -> Dict[str, Any]:
    """Returns an entry as an object for JSON."""
    name, value = map(text_for_json, entry.field)
    return {"entry": entry.number, "size": entry.size, "name": name, "value": value}


def end_object(direction: Direction) -> Dict[str, Any]:
    """Returns the member of an object that has the encoder's end, if that is known."""
    return {"from": direction.end} if direction.end else {}


def choose(connection: Connection, end: str) -> List[Direction]:
    """Returns the directions that are asked for: that of an end, or all."""
    found = [it for it in connection.directions if end in ("", it.end)]
    if not found:
        raise ReportError("the recording has one direction: leave --from out")
    return found


# ---- The tables at a moment


def tables_as_objects(directions: List[Direction], moment: int) -> Iterator[Dict[str, Any]]:
    """Yields the table of each direction after an event."""
    for it in directions:
        table = it.table_at(moment)
        entries = [{**entry_object(entry), "draining": entry.is_draining(moment)} for entry in it.entries_of(table)]
        numbers = {"size": table.size, "capacity": table.capacity, "evicted": table.evicted}
        yield {**end_object(it), "table": entries, **numbers}


def tables_as_text(directions: List[Direction], moment: int) -> Iterator[str]:
    """Yields the lines of the same as text."""
    for it in directions:
        table = it.table_at(moment)
        entries = it.entries_of(table)
        owner = f"{it.end}'s encoder: " if it.end else ""
        yield f"{owner}entries {len(entries)}, {table.size} of {table.capacity} bytes, evicted {table.evicted}"
        for entry in entries:
            note = ", draining" if entry.is_draining(moment) else ""
            yield f"  entry {entry.number}, {entry.size} bytes{note}, {shown_field(entry.field)}"


# ---- The life of an entry


def find_entries(directions: List[Direction], number: int) -> List[Tuple[Direction, Entry]]:
    """Returns the entry of a number in each direction that has one."""
    found = [(it, it.entries[number - 1]) for it in directions if 1 <= number <= len(it.entries)]
    if not found:
        most = max(len(it.entries) for it in directions)
        raise ReportError(f"there is no entry {number}: the last one is {most}" if most else "there are no entries")
    return found


def event_object(event: Event) -> Dict[str, Any]:
    """Returns where an event is: its line, time and end, and its place on its stream."""
    kept = ("line", "time", "from", "encoder", "section", "instruction", "entry")
    return {name: event.said[name] for name in kept if name in event.said}


def form_of(event: Event, place: int) -> Object:
    """Returns the form of a line of a section."""
    return event.lines.shapes[place].form_at(event.said["base"])


def life_as_object(direction: Direction, entry: Entry) -> Dict[str, Any]:
    """Returns the life of an entry as an object for JSON."""
    lines = [
        {**event_object(event), "offset": event.lines.offset(place), "form": form_of(event, place)}
        for event, place in entry.lines
    ]
    inserted = {**event_object(entry.inserted), "bytes": entry.inserted.data.hex()}
    return {
        **end_object(direction),
        **entry_object(entry),
        "inserted": inserted,
        "referenced_by": lines,
        "instructions": [event_object(it) for it in entry.instructions],
        "evicted": None if entry.evicted is None else event_object(entry.evicted),
    }


def life_as_text(direction: Direction, entry: Entry) -> Iterator[str]:
    """Yields the lines of the same as text."""
    owner = f"{direction.end}'s " if direction.end else ""
    yield f"{owner}entry {entry.number}, {entry.size} bytes, {shown_field(entry.field)}"
    yield f"  inserted: {place_of(entry.inserted)}: {title_of(entry.inserted)}; bytes {entry.inserted.data.hex()}"
    for event, place in entry.lines:
        text = shown_form(form_of(event, place))
        yield f"  referenced: {place_of(event)}: section {event.said['section']}, byte {event.lines.offset(place)}: {text}"
    for event in entry.instructions:
        verb = "duplicated" if event.said["instruction"] == "duplicate" else "its name referenced"
        yield f"  {verb}: {place_of(event)}: {title_of(event)}"
    if not entry.lines and not entry.instructions:
        yield "  never referenced"
    if entry.evicted is None:
        yield "  in the table at the end"
    else:
        yield f"  evicted: {place_of(entry.evicted)}: {title_of(entry.evicted)}"
