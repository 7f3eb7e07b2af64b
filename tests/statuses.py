#!/usr/bin/env python3
"""Holds the statuses of the library to tests/statuses.tsv, in each language and in the documents.

    tests/statuses.py

A row of the table is a status of dist/h3_qpack.h: its value, the code that HTTP/3 has for it, the section of the RFC that
says so, what is said of it, what is said with a place, and what the caller does next. A dash is for none, and in the last
three for words of each language's own. Each source must have the statuses that it has by SOURCES, as the table has them,
and no others. In each a fault is planted too, which must be found. The exit status is 1 if a source differs from the table,
or a fault is not found.
"""
import re
import sys
import types
from dataclasses import dataclass
from pathlib import Path
from typing import Callable

TOP = Path(__file__).resolve().parent.parent
TABLE = TOP / "tests" / "statuses.tsv"
PARTS = ["value", "code", "section", "text", "place", "advice"]
OWN = ("text", "place", "advice")
# The place of the table's texts.
NUMBER, OFFSET = 2, 3
# Names of other languages.
RENAMED = {"DONE": "OK", "ENDS": "END", "END_OF_SECTION": "END", "VERSION_MISMATCH": "ERR_VERSION"}
ERRORS_BELOW_0 = ("NO_MEMORY", "NO_ROOM", "INVALID", "TOO_LARGE", "HELD", "VERSION")
CONSTANT = r"^ *///? (.*)\n *pub(?:\(crate\))? const (\w+): (?:u64|i32) = (-?\w+);"


def read_table():
    """Returns the parts of each status by its name, without dashes."""
    rows = [line.split("\t") for line in TABLE.read_text(encoding="utf-8").splitlines()[1:]]
    return {name: {part: it for part, it in zip(PARTS, rest) if it != "-"} for name, *rest in rows}


class Found(dict):
    """The parts of each status that a source has."""

    def note(self, name, **parts):
        """Notes parts of a status by its name in any language, except those that are nothing."""
        plain = re.sub(r"^(QPACK|H3)_", "", re.sub(r"(?<=[a-z])(?=[A-Z])", "_", name).upper())
        plain = RENAMED.get(plain, f"ERR_{plain}" if plain in ERRORS_BELOW_0 else plain)
        self.setdefault(plain, {}).update({part: it for part, it in parts.items() if it})

    def note_number(self, name, value, **parts):
        """Notes a value as the table spells it, and other parts."""
        number = int(value.strip("()"), 0)
        self.note(name, value=f"{number:#x}" if number > 0 else str(number), **parts)


def find_section(comment):
    """Returns the section that a comment names in brackets, in full, or nothing."""
    said = re.search(r"\((?:(RFC \d+), )?(section [\d.]+)\)", comment)
    return said and f"{said[1] or 'RFC 9204'}, {said[2]}"


def read_header(header):
    """Reads the constants of C. A comment over the codes has their sections."""
    found = Found()
    part = header[header.index("/* ---- Statuses */") : header.index("/* ---- Fields */")]
    qpack, http = re.search(r"of (section \d+) or of (RFC \d+, section [\d.]+)", part).groups()
    for name, value, comment in re.findall(r"^#define H3_QPACK_(\w+) (\S+)(?: +/\* (.*) \*/)?$", part, re.M):
        code = value.startswith("0x") and (comment or f"QPACK_{name}")
        section = find_section(comment) if not code else http if comment else f"RFC 9204, {qpack}"
        found.note_number(name, value, code=code, section=section)
    return found


def read_constants(*texts):
    """Reads the constants of Rust and Rattle. A code's name is its own, or begins the comment over it."""
    found = Found()
    for comment, name, value in re.findall(CONSTANT, "\n".join(texts), re.M):
        code = re.match(r"(?:QPACK|H3)_\w+", name) or re.match(r"(?:QPACK|H3)_\w+", comment)
        found.note_number(name, value, code=code and code[0], section=code and find_section(comment))
    return found


def read_exports(text):
    """Reads the constants of the exports. The header keeps one from callers."""
    found = read_constants(text)
    del found["PREFIX"]
    return found


def read_ends(*texts):
    """Reads the codes of the ends in Rattle, and the texts of those errors of which C has a status for each."""
    found = read_constants(*texts)
    for text, variant in re.findall(r'#\[error\("([^"]*)"\)\]\n *(LimitLowered|Memory),', "\n".join(texts)):
        found.note({"LimitLowered": "SETTINGS_ERROR", "Memory": "NO_MEMORY"}[variant], text=text)
    return found


def read_rust(*texts):
    """Reads the constants, which variant each status is, and what is displayed of that."""
    found, text = read_constants(*texts), "\n".join(texts)
    form = re.search(r'write!\(f, "([^"]*)", self\.number, self\.offset\)', text)[1]
    place = form.replace("{}", str(NUMBER), 1).replace("{}", str(OFFSET), 1)
    variants = {variant: name for name, variant in re.findall(r"([A-Z_]{4,}) => (\w+Error::\w+)", text)}
    arm = r'(\w+Error::\w+)(?: \{ (?:\w+: (None|Some\(place\))|\.\.) \})? => \{?\s*(?:f\.write_str\(|write!\(f, )"([^"]*)"'
    for variant, fields, said in re.findall(arm, text):
        if variants.get(variant, "INVALID") != "INVALID":  # of which each call says what its range is
            part = "place" if fields.startswith("Some") else "text"
            found.note(variants[variant], **{part: said.replace("{place}", place)})
    return found


def read_go(text, header):
    """Reads the texts of the statuses, whose values are those of C."""
    found, values = Found(), read_header(header)
    names = dict(re.findall(r"(Err\w+) Status += C\.H3_QPACK_(\w+)", text))
    narrow = dict(re.findall(r'(Err\w+): "([^"]*)"', re.search(r"var causeAt = .*", text)[0]))
    places = {unit: form % (NUMBER, OFFSET) for form, unit in re.findall(r'"(, at (line|instruction) %d, byte %d)"', text)}
    closes = re.search(r'"(close the connection with )%#x"', text)[1]
    for own, name in names.items():
        cause, advice = re.search(rf'{own}: +\{{"([^"]*)", "([^"]*)"\}}', text).groups()
        place = narrow.get(own, cause) + places["instruction" if "STREAM" in name else "line"]
        found.note(name, value=values[name]["value"], text=cause, place=place)
        found.note(name, advice=advice.replace("NextReady", "next_ready") or closes + values[name]["value"])
    return found


def read_python(errors, library):
    """Runs the module of the errors over the constants of the library, and reads what each status raises."""
    constants = {name: int(value) for name, value in re.findall(r"^([A-Z_]+) = (-?\d+)$", library, re.M)}
    found, names = Found(), {it: constants[it] for it in constants if it not in ("VERSION", "NEVER_INDEX")}
    package, below = types.ModuleType("held"), types.ModuleType("held._library")
    package.__path__ = []
    vars(below).update(constants)
    sys.modules.update({"held": package, "held._library": below})
    package._library = below  # pylint: disable=protected-access
    module = {"__name__": "held._errors", "__package__": "held"}
    exec(compile(errors, "_errors.py", "exec"), module)  # pylint: disable=exec-used
    names.update({kind.__name__: code for code, kind in module["CODES"].items()})
    for name, value in names.items():
        plain, placed = (raised_by(module["check"], value, *place) for place in ((0, 0), (NUMBER, OFFSET)))
        found.note_number(name, str(value), text=plain[0], place=placed[0] if placed != plain else "", advice=plain[1])
    return found


def raised_by(check, value, number, offset):
    """Returns the cause and the advice of what a status raises."""
    try:
        check(value, result=types.SimpleNamespace(number=number, offset=offset, required=9))
    except Exception as error:  # pylint: disable=broad-exception-caught
        cause, _, advice = str(error).partition(": ")
        return cause.replace(" until insertion 9", ""), advice
    return "", ""


def read_pairs(pattern):
    """Returns a reader of values and codes: of a pattern of both."""

    def read(*texts):
        found = Found()
        for value, code in re.findall(pattern, "\n".join(texts)):
            found.note_number(code, value, code=code)
        return found

    return read


def read_list(text):
    """Reads a list of the codes of RFC 9204, in the order of the RFC."""
    found = Found()
    values = re.search(r"QPACK_ERRORS = \W(.*?)[])]", text)[1].split(", ")
    for name, value in zip(("DECOMPRESSION_FAILED", "ENCODER_STREAM_ERROR", "DECODER_STREAM_ERROR"), values):
        found.note_number(name, value)
    return found


def read_names(pattern):
    """Returns a reader of values: of a pattern of a name and its value."""

    def read(text):
        found = Found()
        for name, value in re.findall(pattern, text, re.S):
            found.note_number(name, value)
        return found

    return read


@dataclass
class Source:
    """Where statuses are: a name, files, their reader, the parts that it has, statuses that it lacks, and a planted fault."""

    name: str
    files: list
    read: Callable
    parts: tuple
    lacks: tuple
    planted: tuple

    def texts(self, planted=False):
        """Returns the texts of its files, or these with the planted fault."""
        texts = [(TOP / it).read_text(encoding="utf-8") for it in self.files]
        if not planted:
            return texts
        old, new = self.planted
        assert sum(text.count(old) for text in texts) == 1, f"{self.name}: not once there: {old}"
        return [text.replace(old, new) for text in texts]

    def find_faults(self, table, planted=False):
        """Yields what it has otherwise than the table, lacks, or has besides."""
        found = self.read(*self.texts(planted))
        for name in found.keys() - table.keys():
            yield f"{self.name}: {name} is no status of the table"
        for name in table.keys() - set(self.lacks):
            for part in self.parts:
                if part in table[name] and part not in found.get(name, {}):
                    yield f"{self.name}: {name} has no {part}, and the table has {table[name][part]}"
        for name in found.keys() & table.keys():
            for part, it in found[name].items():
                if table[name].get(part, it if part in OWN else "none") != it:
                    yield f"{self.name}: the {part} of {name} is {it}, and the table has {table[name].get(part, 'none')}"


BELOW_0 = (
    "ERR_NO_MEMORY",
    "ERR_NO_ROOM",
    "BLOCKED",
    "ERR_INVALID",
    "ERR_TOO_LARGE",
    "ERR_HELD",
    "ERR_VERSION",
    "FIELD",
    "END",
)
NOT_OF_QPACK = ("OK", "SETTINGS_ERROR", *BELOW_0)
NO_ERRORS = ("OK", "ERR_NO_ROOM", "FIELD", "END")
RUST, ENCODING, DECODING = "bindings/rust/h3_qpack/src", "crates/qpack_encoding/src", "crates/qpack_decoding/src"
PYTHON = "bindings/python/h3_qpack"
SOURCES = [
    Source("C", ["dist/h3_qpack.h"], read_header, ("value", "code", "section"), (), ("_HELD (-6)", "_HELD (-10)")),
    Source(
        "Rattle, the exports",
        ["crates/h3_qpack_c/src/statuses.rt"],
        read_exports,
        ("value", "code"),
        ("ERR_VERSION",),
        ("QPACK_ENCODER_STREAM_ERROR (RFC 9204, section 6)", "QPACK_ENCODER_STREAM_ERROR (RFC 9204, section 7)"),
    ),
    Source(
        "Rattle, the ends",
        [
            f"{DECODING}/section.rt",
            f"{DECODING}/encoder_stream.rt",
            f"{ENCODING}/decoder_stream.rt",
            f"{ENCODING}/encoder.rt",
        ],
        read_ends,
        ("value", "code", "section"),
        ("OK", *BELOW_0),
        ('"the peer lowered its limit of blocked streams"', '"the peer lowered its limit"'),
    ),
    Source(
        "qpk check",
        ["crates/qpk_check/src/findings.rt"],
        read_pairs(r'\\"code\\":(\d+),\\"code_name\\":\\"(QPACK_\w+)\\"'),
        ("value", "code"),
        NOT_OF_QPACK,
        ("514", "515"),
    ),
    Source(
        "Rust",
        [f"{RUST}/sys.rs", f"{RUST}/connection/error.rs"],
        read_rust,
        ("value", "code", "text", "place"),
        ("ERR_VERSION", "BLOCKED", "ERR_INVALID", "ERR_TOO_LARGE"),
        ('f.write_str("entries may still be referenced")', 'f.write_str("entries are held")'),
    ),
    Source(
        "Go",
        ["bindings/go/errors.go", "bindings/go/h3_qpack.h"],
        read_go,
        ("value", *OWN),
        NO_ERRORS,
        ("the section is too large", "the section is large"),
    ),
    Source(
        "Python",
        [f"{PYTHON}/_errors.py", f"{PYTHON}/_library.py"],
        read_python,
        ("value", *OWN),
        (),
        ("code = 0x202", "code = 0x203"),
    ),
    Source(
        "pylsqpack",
        ["bindings/pylsqpack/pylsqpack/_errors.py"],
        read_names(r'class (\w+)\(\w+\):\n    """[^"]*with (0x\w+)\.'),
        ("value",),
        NOT_OF_QPACK,
        ("connection with 0x201", "connection with 0x202"),
    ),
    Source(
        "JavaScript",
        ["tool/qpk/tab/script_reader.js"],
        read_pairs(r"\[(0x\w+), '(QPACK_\w+)'\]"),
        ("value", "code"),
        NOT_OF_QPACK,
        ("[0x201, 'QPACK", "[0x200, 'QPACK"),
    ),
    Source("captures", ["tool/qpk/connections.py"], read_list, ("value",), NOT_OF_QPACK, ("0x201, 0x202", "0x202, 0x201")),
    Source("the page", ["tool/qpk/tab/connections.js"], read_list, ("value",), NOT_OF_QPACK, ("0x200, 0x201", "0x200, 0x210")),
    Source(
        "docs/ERRORS.md",
        ["docs/ERRORS.md"],
        read_names(r"`H3_QPACK_(\w+)` (-?\w+)"),
        ("value",),
        ("OK",),
        ("_HELD` -6", "_HELD` -7"),
    ),
]


def main():
    table, faults = read_table(), []
    for source in SOURCES:
        faults += source.find_faults(table)
        if not list(source.find_faults(table, planted=True)):
            faults.append(f"{source.name}: the planted fault was not found")
    print("".join(f"{it}\n" for it in sorted(faults)), end="")
    print(f"statuses: {len(table)} in {len(SOURCES)} sources, {len(faults)} faults, and a planted fault of each source")
    return 1 if faults else 0


if __name__ == "__main__":
    sys.exit(main())
