"""Texts as qpk show prints them."""

from .connection import Event
from .lines import Field, Object, shown_form

PRINTABLE = range(0x20, 0x7F)


def shown(data: bytes, is_name: bool = False) -> str:
    """Returns bytes as text, as qpk show does: a backslash is doubled, and other signs are \\x and two digits."""
    text = data.decode("latin-1")
    if text.isascii() and text.isprintable() and "\\" not in text and not (is_name and " " in text):
        return text
    parts = []
    for byte in data:
        if byte == 0x5C:
            parts.append("\\\\")
        elif byte not in PRINTABLE or is_name and byte == 0x20:
            parts.append(f"\\x{byte:02x}")
        else:
            parts.append(chr(byte))
    return "".join(parts)


def shown_field(field: Field) -> str:
    """Returns a field as text."""
    return f"{shown(field.name, is_name=True)}: {shown(field.value)}"


def place_of(event: Event) -> str:
    """Returns where an event is in the recording: its line, its time and its end, as far as they are known."""
    said = event.said
    return ", ".join([f"line {event.line}", *(str(said[it]) for it in ("time", "from") if it in said)])


def title_of(event: Event) -> str:
    """Returns what an event is, without its fields."""
    said = event.said
    if event.stream:
        return f"{event.stream} {said[event.stream]}: {instruction(said)}"
    if "section" in said:
        return f"section {said['section']}: {section(said)}"
    if "max_capacity" in said:
        return f"settings: maximum capacity {said['max_capacity']}, blocked streams {said['max_blocked']}"
    if "given_up" in said:
        return f"stream {said['given_up']}: given up"
    if "left_out" in said:
        return "half a byte at the end of the recording is left out"
    return f"record {said.get('record', '')}: cut at the end of the recording"


def instruction(said: Object) -> str:
    """Returns what an instruction does."""
    kind = said.get("instruction")
    if kind is None:
        return f"cut, bytes that wait: {said['cut']}" if "cut" in said else "refused"
    if kind == "set capacity":
        return f"set capacity {said['capacity']}"
    inserted = f" as entry {said['entry']}" if "entry" in said else ""
    if kind == "insert":
        names = said["name_from"]
        of_name = "" if names["type"] == "literal" else f" with the name of {shown_form(names)}"
        return f"insert{of_name}{inserted}"
    if kind == "duplicate":
        entry = f" (entry {said['of']['entry']})" if "entry" in said["of"] else ""
        return f"duplicate {said['of']['index']}{entry}{inserted}"
    return f"increment {said['by']}" if kind == "increment" else f"{kind} stream {said['stream']}"


def section(said: Object) -> str:
    """Returns what became of a section."""
    if "blocked_until" in said:
        return f"blocked until insertion {said['blocked_until']}"
    if "required_insert_count" not in said:
        return "refused"
    unblocked = "unblocked, " if said.get("was_blocked") else ""
    return f"{unblocked}required insert count {said['required_insert_count']}, base {said['base']}"
