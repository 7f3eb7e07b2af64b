#!/usr/bin/env python3
"""Compares the code of two objects for x86-64, one of ELF and one of COFF: dist/same_code.py ELF COFF.

The text of COFF is that of ELF in another spelling. So its object must have the same sections in the same order, with the
same bytes, and the same relocations of the same fields. A relocation has what it leads to: a place in a section, or the
name of a symbol from elsewhere, and how far from there. The functions that have another name in COFF stand in RENAMED. An
assembler's own sections are left out if they are empty, and so are tables for a debugger and notes for a linker.
Status 0: they are the same. Status 1: a line says what differs first. Status 2: an object can't be read.
"""
import struct
import sys
from dataclasses import dataclass, field

# What dist/texts renames for COFF: the wrappers of heap.c stand there in the place of the C library's functions.
RENAMED = {f"rattle_{it}": it for it in ("memcpy", "memmove", "memset", "memcmp")}
ELF_CALLS = {2: 4, 4: 4, 1: 8}  # R_X86_64_PC32, PLT32 and 64, with the bytes of the field
COFF_ADDRESS = 1  # IMAGE_REL_AMD64_ADDR64; 4 to 9 are REL32 to REL32_5


class Unread(Exception):
    """An object is not of the form that this script reads."""


@dataclass
class Section:
    """A section: its name, what it is for, its bytes, and its relocations as (offset, size, target, distance)."""

    name: str
    kind: str
    bytes: bytes
    relocations: list = field(default_factory=list)


def is_compared(section):
    """Returns whether a section is of the text: an assembler adds these that are empty, and tables for a debugger."""
    return section.name != ".eh_frame" and (section.bytes or section.name not in (".text", ".data", ".bss"))


def text_at(table, at):
    """Returns the text that ends in a zero byte."""
    return table[at : table.index(b"\0", at)].decode()


def place_of(name, section, value):
    """Returns what a symbol is: a place in a section, by its number, or a name from elsewhere, without a place in it."""
    return (section, value) if section is not None else (RENAMED.get(name, name), 0)


def read_elf(data):
    """Returns the sections of an object of ELF that are loaded."""
    if data[:6] != b"\x7fELF\x02\x01":
        raise Unread("it is no object of ELF with 64 bits")
    start, size, count, names = (struct.unpack_from("<Q", data, 40)[0], *struct.unpack_from("<HHH", data, 58))
    heads = [struct.unpack_from("<IIQQQQIIQQ", data, start + size * at) for at in range(count)]
    body = [data[it[4] : it[4] + it[5]] if it[1] != 8 else bytes(it[5]) for it in heads]
    texts = body[names]
    # The flags 2 and 4: it is loaded, and has code. The types 1 and 7: it has bytes of the program, or notes.
    loaded = {
        at: Section(text_at(texts, it[0]), "code" if it[2] & 4 else "data", body[at])
        for at, it in enumerate(heads)
        if it[2] & 2 and it[1] == 1
    }
    loaded = {at: it for at, it in loaded.items() if is_compared(it)}
    order = {at: number for number, at in enumerate(loaded)}
    table = next(at for at, it in enumerate(heads) if it[1] == 2)
    strings, symbols = body[heads[table][6]], []
    for at in range(0, len(body[table]), 24):
        name, _, _, index, value, _ = struct.unpack_from("<IBBHQQ", body[table], at)
        symbols.append(place_of(text_at(strings, name), order.get(index), value))
    for at, it in enumerate(heads):
        if it[1] != 4 or it[7] not in loaded:
            continue
        for entry in range(0, it[5], 24):
            offset, info, distance = struct.unpack_from("<QQq", body[at], entry)
            if info & 0xFFFFFFFF not in ELF_CALLS:
                raise Unread(f"a relocation of the kind {info & 0xffffffff}")
            loaded[it[7]].relocations.append((offset, ELF_CALLS[info & 0xFFFFFFFF], *lead(symbols[info >> 32], distance)))
    return list(loaded.values())


def lead(place, distance):
    """Returns what a relocation leads to, and how far from there: in a section, from its start."""
    target, value = place
    return target, value + distance


def read_coff(data):
    """Returns the sections of an object of COFF that are loaded, with fields of relocations as zeros, as in ELF."""
    machine, count, _, table, symbol_count, _, _ = struct.unpack_from("<HHIIIHH", data)
    if machine != 0x8664:
        raise Unread("it is no object of COFF for x86-64")
    strings = data[table + 18 * symbol_count :]

    def name_of(raw):
        return text_at(strings, struct.unpack("<I", raw[4:])[0]) if raw[:4] == bytes(4) else raw.rstrip(b"\0").decode()

    heads = [struct.unpack_from("<8sIIIIIIHHI", data, 20 + 40 * at) for at in range(count)]
    loaded = {}
    for at, it in enumerate(heads):
        name = it[0].rstrip(b"\0").decode()
        name = text_at(strings, int(name[1:])) if name.startswith("/") else name
        kind = "code" if it[9] & 0x20 else "data"  # IMAGE_SCN_CNT_CODE
        section = Section(name, kind, bytearray(data[it[4] : it[4] + it[3]]))
        if not it[9] & 0xA80 and is_compared(section):  # it has bytes, is no note, and is not to be removed
            loaded[at] = section
    order = {at: number for number, at in enumerate(loaded)}
    symbols, at = [], 0
    while at < symbol_count:
        raw, value, index, _, _, more = struct.unpack_from("<8sIhHBB", data, table + 18 * at)
        symbols += [place_of(name_of(raw), order.get(index - 1), value)] * (1 + more)
        at += 1 + more
    for at, section in loaded.items():
        for number in range(heads[at][7]):
            offset, symbol, kind = struct.unpack_from("<IIH", data, heads[at][5] + 10 * number)
            size = 8 if kind == COFF_ADDRESS else 4
            if kind != COFF_ADDRESS and not 4 <= kind <= 9:
                raise Unread(f"a relocation of the kind {kind}")
            distance = int.from_bytes(section.bytes[offset : offset + size], "little", signed=True)
            section.bytes[offset : offset + size] = bytes(size)
            # REL32 counts from behind the field, and REL32_n from n bytes further. ELF counts from the field.
            distance -= 0 if kind == COFF_ADDRESS else kind
            section.relocations.append((offset, size, *lead(symbols[symbol], distance)))
    return list(loaded.values())


def find_difference(elf, coff):
    """Returns what differs first, or None."""
    if len(elf) != len(coff):
        return f"{len(elf)} sections and {len(coff)}"
    for one, other in zip(elf, coff):
        both = f"{one.name} and {other.name}"
        if one.kind != other.kind:
            return f"{both}: {one.kind} and {other.kind}"
        if one.bytes != other.bytes:
            return f"{both}: other bytes"
        for left, right in zip(sorted(one.relocations, key=str), sorted(other.relocations, key=str)):
            if left != right:
                return f"{both}: a relocation {left} and {right}"
        if len(one.relocations) != len(other.relocations):
            return f"{both}: {len(one.relocations)} relocations and {len(other.relocations)}"
    return None


def main(words):
    if len(words) != 2:
        sys.exit("usage: dist/same_code.py ELF COFF")
    objects = []
    for path, read in zip(words, (read_elf, read_coff)):
        try:
            with open(path, "rb") as it:
                objects.append(read(it.read()))
        except (OSError, Unread, struct.error, ValueError) as why:
            print(f"dist/same_code.py: {path}: {why}", file=sys.stderr)
            return 2
    difference = find_difference(*objects)
    if difference:
        print(f"dist/same_code.py: {difference}", file=sys.stderr)
        return 1
    code = sum(len(it.bytes) for it in objects[0] if it.kind == "code")
    links = sum(len(it.relocations) for it in objects[0])
    print(f"same code: {len(objects[0])} sections, {code} bytes of code, {links} relocations")
    return 0


if __name__ == "__main__":
    sys.exit(main(sys.argv[1:]))
