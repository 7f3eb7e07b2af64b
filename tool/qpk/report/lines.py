"""The lines of a section, as qpk show prints them as JSON, and the fields that they have.

A connection has few forms and fields, and many lines. So what lines have in common is read once, as a shape: all but the
offset, and but for the index of a line of the dynamic table, which follows from its entry and the base of the section.
"""

import json
from typing import Any, Dict, Iterable, List, NamedTuple, Optional

Object = Dict[str, Any]
FIRST = b',"lines":['  # begins the lines of an object; no string of JSON has these bytes
NEXT = b'{"offset":'  # begins each line
FORM = b',"form":'  # is between the offset of a line and its form
FIELD = b'},"name":'  # is between the form and the field
OF_TABLE = (b'{"type":"dynamic",', b'{"type":"post-base",')  # begin a form of the dynamic table: its index, and its entry
ENTRY = b',"entry":'  # is between these
END, AFTER = b"}]", b"},"  # what ends the last line, and each other one
MOST_KEPT = 1 << 14  # shapes that are kept at once
read_object = json.JSONDecoder().raw_decode  # half of the time of json.loads


class Field(NamedTuple):
    """A field, or a field line."""

    name: bytes
    value: bytes

    @property
    def length(self) -> int:
        """The bytes of its name and its value."""
        return len(self.name) + len(self.value)


def field_of(it: Object) -> Field:
    """Returns the field of an object that qpk printed."""
    return Field(bytes_of_text(it["name"]), bytes_of_text(it["value"]))


def bytes_of_text(text: Any) -> bytes:
    """Returns the bytes of a string of qpk's JSON, or of the object that it prints if they are not UTF-8."""
    data: bytes = text.encode() if isinstance(text, str) else bytes.fromhex(text["hex"])
    return data


def is_in_qif(it: Field) -> bool:
    """Whether a line of QIF can have a field."""
    return b"\n" not in it.name + it.value and b"\t" not in it.name and not it.name.startswith(b"#")


class Form(NamedTuple):
    """How lines have their field, as qpk prints it in each section."""

    how: str  # static, dynamic, static-name, dynamic-name or literal
    entry: Optional[int]  # that it references, for its name at least
    said: Object  # as qpk printed it
    words: str  # as qpk show prints it


def form_of(said: Object) -> Form:
    """Returns a form that qpk printed."""
    names = said.get("name_from", said)
    source = "dynamic" if "entry" in names else names["type"]
    how = f"{source}-name" if names is not said and source != "literal" else source
    return Form(how, names.get("entry"), said, shown_form(said))


class Shape:
    """What lines have in common: how each has its field, and the field."""

    __slots__ = ("how", "entry", "form", "field", "is_in_qif")

    def __init__(self, form: Form, field: Field) -> None:
        self.how, self.entry = form[:2]
        self.form, self.field = form, field  # the form is that of one line
        self.is_in_qif = is_in_qif(field)

    def form_at(self, base: int) -> Object:
        """Returns the form as qpk prints it of a line of a section with this base."""
        if self.how != "dynamic" or self.entry is None:
            return self.form.said
        kind, index = ("dynamic", base - self.entry) if self.entry <= base else ("post-base", self.entry - base - 1)
        return {"type": kind, "index": index, "entry": self.entry}


def shown_form(form: Object) -> str:
    """Returns how a line or an instruction has its field, or its name, as qpk show does."""
    if form["type"] == "literal":
        text = "literal never indexed" if form.get("never_indexed") else "literal"
        names = form.get("name_from", form)
        return text if names["type"] == "literal" else f"{text} with the name of {shown_form(names)}"
    entry = f" (entry {form['entry']})" if "entry" in form else ""
    return f"{form['type']} {form['index']}{entry}"


class Lines:
    """The lines of a section: their shapes, and where they begin. The offsets are read when somebody asks for them."""

    __slots__ = ("shapes", "texts")

    def __init__(self, shapes: List[Shape], texts: List[bytes]) -> None:
        self.shapes, self.texts = shapes, texts  # each text begins with the offset, and a comma

    def offset(self, place: int) -> int:
        """Returns the offset of a line."""
        return self.offsets()[place]

    def offsets(self) -> List[int]:
        """Returns the offsets of all lines."""
        return [int(it[: it.index(b",")]) for it in self.texts]


NO_LINES = Lines([], [])


class Objects:
    """Reads the objects that qpk show prints, a line each. The lines of a section are read by their shapes."""

    def __init__(self) -> None:
        self.known: Dict[bytes, Shape] = {}  # by the text after the offset, or of the dynamic table by that after the index
        self.forms: Dict[bytes, Form] = {}

    def read(self, text: bytes) -> Object:
        """Reads an object."""
        head, mark, rest = text.partition(FIRST)
        lines, end, tail = rest.rpartition(END)
        if not mark or not end:
            return read_object(text.decode())[0]  # type: ignore[no-any-return]
        found: Object = read_object((head + tail).decode())[0]
        found["lines"] = self.lines(lines + AFTER)
        return found

    def lines(self, text: bytes) -> Lines:
        """Reads the lines of a section."""
        known, shapes, texts = self.known, [], text.split(NEXT)[1:]
        for it in texts:
            shapes.append(known.get(it.partition(ENTRY)[2]) or known.get(it.partition(b",")[2]) or self.read_shape(it))
        return Lines(shapes, texts)

    def read_shape(self, text: bytes) -> Shape:
        """Reads the shape of a line, and keeps it."""
        if len(self.known) >= MOST_KEPT:
            self.known.clear()
        form, _, field = text.partition(FORM)[2].partition(FIELD)
        shape = Shape(self.read_form(form), field_of(read_object('{"name":' + field.decode())[0]))
        self.known[text.partition(ENTRY if shape.how == "dynamic" else b",")[2]] = shape
        return shape

    def read_form(self, text: bytes) -> Form:
        """Reads a form, without its last bracket. All are kept but those of the dynamic table, which are many."""
        if text.startswith(OF_TABLE):
            return Form("dynamic", int(text.rpartition(b":")[2]), {}, "")
        if text not in self.forms:
            if len(self.forms) >= MOST_KEPT:
                self.forms.clear()
            self.forms[text] = form_of(read_object(text.decode() + "}")[0])
        return self.forms[text]


def lines_of(objects: Iterable[Object]) -> Lines:
    """Returns the lines that objects are which qpk printed."""
    shapes = [Shape(form_of(it["form"]), field_of(it)) for it in objects]
    return Lines(shapes, [b"%d," % it["offset"] for it in objects])
