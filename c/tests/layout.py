#!/usr/bin/env python3
"""Compares the structs that cross the C interface, as they are declared, with c/tests/layout.txt.

They are declared in dist/h3_qpack.h and, with #[repr(C)], in crates/h3_qpack_c/src. Each declaration must have the
fields of the table, by name and in order, with types of the sizes there. c/tests/layout.c prints what a compiler makes
of the header, and the tests of bindings/rust/h3_qpack/src/sys.rs hold the structs of the Rust crate to the same table.
"""

import re
import sys
from pathlib import Path
from typing import Dict, Iterator, List, NamedTuple, Tuple

TESTS = Path(__file__).resolve().parent
TOP = TESTS.parent.parent
SOURCES = TOP / "crates/h3_qpack_c/src"

# The structs of the Rattle sources: the module and the name, and the name in C.
NAMES = {
    "answers::DecodedAlone": "h3_qpack_decoded_alone",
    "answers::Decoding": "h3_qpack_decoded",
    "answers::Encoded": "h3_qpack_encoded",
    "answers::Given": "h3_qpack_field",
    "answers::Piece": "h3_qpack_piece",
    "answers::Prefixed": "h3_qpack_prefix",
    "answers::Received": "h3_qpack_received",
    "answers::Written": "h3_qpack_written",
    "decoder::Handle": "h3_qpack_decoder",
    "decoder::slot::Slot": "h3_qpack_decoder",
    "encoder::Handle": "h3_qpack_encoder",
    "encoder::slot::Slot": "h3_qpack_encoder",
    "fields::Field": "h3_qpack_nv",
    "reader::Handle": "h3_qpack_section_reader",
    "reader::slot::Slot": "h3_qpack_section_reader",
    "views::View": "h3q_view",
}

# Fields whose names in C are others.
RENAMED = {(struct, name): name + "len" for struct in ("answers::Given", "views::View") for name in ("name", "value")}

# The sizes of the types in bytes, on a machine of 64 bits.
POINTER = 8
SIZES = {
    **{"u8": 1, "i16": 2, "i32": 4, "u32": 4, "u64": 8, "usize": 8, "*const u8": POINTER, "*mut u8": POINTER},
    **{"uint8_t": 1, "int16_t": 2, "int32_t": 4, "uint32_t": 4, "uint64_t": 8, "size_t": 8},
}

Fields = List[Tuple[str, int]]


class Row(NamedTuple):
    field: str
    offset: int
    size: int


class Struct(NamedTuple):
    place: str
    name: str  # in C
    fields: Fields


Table = Dict[str, List[Row]]


def lay_out(fields: Fields) -> List[Row]:
    """Where C puts fields of these names and sizes, after a row for the whole."""
    rows, end, alignment = [], 0, 1
    for name, size in fields:
        offset = -(-end // size) * size
        rows.append(Row(name, offset, size))
        end, alignment = offset + size, max(alignment, size)
    return [Row("-", 0, -(-end // alignment) * alignment), *rows]


def show(rows: List[Row]) -> str:
    return ", ".join(f"{row.field} at {row.offset} of {row.size}" for row in rows[1:]) or "nothing"


def size_of(type_name: str, place: str) -> int:
    if type_name not in SIZES:
        sys.exit(f"c/tests/layout.py: {place}: the type {type_name} has no size in SIZES: add it there")
    return SIZES[type_name]


def fields_in_c(body: str, struct: str) -> Fields:
    fields = []
    for declaration in filter(None, map(str.strip, body.split(";"))):
        match = re.fullmatch(r"(?:const )?(\w+) (\*?)(\w+)", declaration)
        if not match:
            sys.exit(f"c/tests/layout.py: dist/h3_qpack.h: {struct}: this is no field: {declaration}")
        fields.append((match[3], POINTER if match[2] else size_of(match[1], struct)))
    return fields


def fields_in_rattle(body: str, struct: str) -> Fields:
    fields = []
    for line in filter(None, map(str.strip, body.splitlines())):
        if line.startswith(("///", "ghost ")):
            continue
        match = re.fullmatch(r"(?:pub )?(\w+): (.+),", line)
        if not match:
            sys.exit(f"c/tests/layout.py: {struct}: this is no field: {line}")
        name = RENAMED.get((struct, match[1]), match[1])
        if re.fullmatch(r"&('\w+ )?\[u8\]", match[2]):
            fields += [(name, POINTER), (name + "len", size_of("usize", struct))]
        else:
            fields.append((name, size_of(match[2], struct)))
    return fields


def place_of(struct: str) -> str:
    return f"crates/h3_qpack_c: {struct}"


def structs_of_header() -> Iterator[Struct]:
    text = re.sub(r"/\*.*?\*/", "", (TOP / "dist/h3_qpack.h").read_text(), flags=re.S)
    for name, body in re.findall(r"typedef struct (\w+) \{(.*?)\}", text, flags=re.S):
        yield Struct(f"dist/h3_qpack.h: {name}", name, fields_in_c(body, name))


def structs_of_rattle() -> Iterator[Struct]:
    pattern = r"#\[repr\(C\)\]\n(?:#\[[^\n]*\]\n)*(?:pub )?struct (\w+)(?:<[^\n>]*>)? \{\n(.*?)^\}"
    for path in sorted(SOURCES.rglob("*.rt")):
        text = path.read_text()
        found = re.findall(pattern, text, flags=re.S | re.M)
        if len(found) != text.count("#[repr(C)]"):
            sys.exit(f"c/tests/layout.py: {path.relative_to(TOP)}: a struct of #[repr(C)] is not read")
        for name, body in found:
            struct = "::".join([*path.relative_to(SOURCES).with_suffix("").parts, name])
            if struct not in NAMES:
                sys.exit(f"c/tests/layout.py: {struct} has no name in NAMES: add it there")
            yield Struct(place_of(struct), NAMES[struct], fields_in_rattle(body, struct))


def read_table() -> Table:
    table: Table = {}
    for line in (TESTS / "layout.txt").read_text().splitlines():
        struct, field, offset, size = line.split()
        table.setdefault(struct, []).append(Row(field, int(offset), int(size)))
    return table


def find_differences(table: Table, structs: List[Struct]) -> Iterator[str]:
    for struct in structs:
        rows, expected = lay_out(struct.fields), table.get(struct.name, [])
        if rows != expected:
            yield f"{struct.place}: declared as {show(rows)}; c/tests/layout.txt has {show(expected)}"


def find_missing(table: Table, header: List[Struct], rattle: List[Struct]) -> Iterator[str]:
    for name in sorted(set(table) - {struct.name for struct in header}):
        yield f"c/tests/layout.txt has {name}, and dist/h3_qpack.h does not declare it"
    for place in sorted(set(map(place_of, NAMES)) - {struct.place for struct in rattle}):
        yield f"{place} is not declared with #[repr(C)]"


def main() -> None:
    table, header, rattle = read_table(), list(structs_of_header()), list(structs_of_rattle())
    faults = [*find_differences(table, header + rattle), *find_missing(table, header, rattle)]
    if faults:
        sys.exit("\n".join(faults))
    print(f"layout: {len(header)} structs of the header and {len(rattle)} of Rattle are as c/tests/layout.txt has them")


if __name__ == "__main__":
    main()
