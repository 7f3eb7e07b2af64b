#!/usr/bin/env python3
"""Calls the library as a binding does, without the header: bindings.py LIBRARY LAYOUT, a shared library and layout.txt.

The structs are made of the table. Two fields go through an encoder and a decoder whose section is blocked at first, and
both ends tell of the entry that one of them is.
"""

import ctypes
import sys
from pathlib import Path
from typing import Any, Dict, List, Tuple

VERSION = 2
OK, BLOCKED, ERR_VERSION = 0, -3, -7
TYPES = {1: ctypes.c_uint8, 2: ctypes.c_int16, 4: ctypes.c_int32, 8: ctypes.c_uint64}


def read_structs(path: str) -> Dict[str, Any]:
    """The structs of the table, as ctypes has them; pointers are numbers."""
    rows: Dict[str, List[Tuple[str, int, int]]] = {}
    for line in Path(path).read_text().splitlines():
        struct, field, offset, size = line.split()
        rows.setdefault(struct, []).append((field, int(offset), int(size)))
    structs = {}
    for name, (whole, *fields) in rows.items():
        struct = type(name, (ctypes.Structure,), {"_fields_": [(field, TYPES[size]) for field, _, size in fields]})
        assert ctypes.sizeof(struct) == whole[2], name
        assert all(getattr(struct, field).offset == offset for field, offset, _ in fields), name
        structs[name] = struct
    return structs


class Library:
    """The functions of the library, by their names without h3_qpack_."""

    def __init__(self, path: str, structs: Dict[str, Any]) -> None:
        self.functions = ctypes.CDLL(path)
        self.structs = structs

    def call(self, returned: Any, name: str, *words: Any) -> Any:
        """Calls a function that returns a type, or a struct of this name."""
        function = self.functions[f"h3_qpack_{name}"]
        function.restype = self.structs[f"h3_qpack_{returned}"] if isinstance(returned, str) else returned
        return function(*words)

    def make(self, kind: str, **values: int) -> Any:
        """An encoder or a decoder of the default settings and these values."""
        settings, end = self.structs[f"h3_qpack_{kind}_settings"](), self.structs[f"h3_qpack_{kind}"]()
        at, settings_at = ctypes.byref(end), ctypes.byref(settings)
        self.call(None, f"{kind}_settings_default_versioned", VERSION, settings_at)
        for name, value in values.items():
            setattr(settings, name, value)
        assert self.call(ctypes.c_int, f"{kind}_new_versioned", at, VERSION + 0x10000, settings_at) == ERR_VERSION
        assert self.call(ctypes.c_int, f"{kind}_new_versioned", at, VERSION, settings_at) == OK and end.at
        return at


def size(number: int) -> ctypes.c_size_t:
    return ctypes.c_size_t(number)


def lend(fields: List[Tuple[bytes, bytes]], struct: Any) -> Any:
    """An array of fields, whose bytes the caller keeps."""
    return (struct * len(fields))(*[(address(name), len(name), address(value), len(value), 0) for name, value in fields])


def address(text: bytes) -> Any:
    return ctypes.cast(ctypes.c_char_p(text), ctypes.c_void_p).value


def main() -> None:
    library = Library(sys.argv[1], read_structs(sys.argv[2]))
    fields = [(b":method", b"GET"), (b"x-trace", b"\xff\x00")]
    encoder = library.make("encoder", max_capacity=4096, max_blocked=16)
    decoder = library.make("decoder", max_capacity=4096, max_blocked=16)
    section, stream, text = (ctypes.create_string_buffer(256) for _ in range(3))
    stream_id = ctypes.c_uint64(4)

    nva = lend(fields, library.structs["h3_qpack_nv"])
    sent = library.call("encoded", "encoder_encode", encoder, stream_id, nva, size(2), section, size(256))
    assert sent.status == OK and sent.required == 1 and sent.size == 10 + 9 + 2 * 32
    count = library.call(ctypes.c_size_t, "encoder_write_encoder", encoder, stream, size(256))
    words = decoder, stream_id, section, size(sent.len)
    got = library.call("decoded", "decoder_decode", *words)
    assert got.status == BLOCKED and got.required == 1
    heard = library.call("received", "decoder_read_encoder", decoder, stream, size(count))
    assert heard.status == OK and heard.taken == count
    got = library.call("decoded", "decoder_decode", *words)
    assert got.status == OK and got.fields == 2 and got.len == 10 + 9

    told = (library.structs["h3_qpack_field"] * 2)()
    written = library.call("written", "decoder_fields", decoder, told, size(2), text, size(256))
    assert written.status == OK and text.raw[: written.len] == b"".join(name + value for name, value in fields)
    assert [(it.namelen, it.valuelen) for it in told] == [(len(name), len(value)) for name, value in fields]
    views = (library.structs["h3_qpack_view"] * 2)()
    assert library.call(ctypes.c_size_t, "decoder_views", decoder, views, size(2)) == 2
    seen = [(ctypes.string_at(it.name, it.namelen), ctypes.string_at(it.value, it.valuelen)) for it in views]
    assert seen == fields and [(it.static_name, it.static_field) for it in views] == [(15, 17), (-1, -1)]
    for end, at in (("encoder", encoder), ("decoder", decoder)):
        entry = library.call("field", f"{end}_entry", at, size(0), text, size(256))
        assert entry.status == OK and (entry.namelen, entry.valuelen) == (7, 2)
        assert text.raw[:9] == b"x-trace\xff\x00"
        counts = ("icnt", 1), ("num_entries", 1), ("table_size", 41), ("capacity", 4096)
        assert all(library.call(ctypes.c_size_t, f"{end}_get_{name}", at) == count for name, count in counts)
    library.call(None, "encoder_del", encoder)
    library.call(None, "decoder_del", decoder)
    print(f"bindings: {len(library.structs)} structs, and two fields through both ends, from Python")


if __name__ == "__main__":
    main()
