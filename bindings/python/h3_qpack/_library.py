"""The C library: where it is found, its structs and its functions."""

import ctypes
import ctypes.util
import os
from ctypes import POINTER, c_char_p, c_int, c_int32, c_size_t, c_uint8, c_uint32, c_uint64, c_void_p
from typing import Any, Dict, List, Tuple

# The version of the interface, H3_QPACK_VERSION, that the structs below are of.
VERSION = 2
# Names a library that is not where the linker looks.
VARIABLE = "H3_QPACK_LIBRARY"

OK = 0
NO_MEMORY = -1
NO_ROOM = -2
BLOCKED = -3
INVALID = -4
TOO_LARGE = -5
HELD = -6
VERSION_MISMATCH = -7
FIELD = -8
END_OF_SECTION = -9

NEVER_INDEX = 0x01


class Nv(ctypes.Structure):
    _fields_ = [
        ("name", c_char_p),
        ("namelen", c_size_t),
        ("value", c_char_p),
        ("valuelen", c_size_t),
        ("flags", c_uint8),
    ]


class CopiedField(ctypes.Structure):
    _fields_ = [("status", c_int32), ("flags", c_uint32), ("namelen", c_size_t), ("valuelen", c_size_t)]


class Encoded(ctypes.Structure):
    _fields_ = [("status", c_int32), ("len", c_size_t), ("required", c_size_t), ("size", c_size_t)]


class Written(ctypes.Structure):
    _fields_ = [("status", c_int32), ("len", c_size_t)]


class Received(ctypes.Structure):
    _fields_ = [("status", c_int32), ("taken", c_size_t), ("number", c_uint64), ("offset", c_uint64)]


class DecodedAlone(ctypes.Structure):
    _fields_ = [
        ("status", c_int32),
        ("fields", c_size_t),
        ("len", c_size_t),
        ("number", c_uint64),
        ("offset", c_uint64),
    ]


class Prefix(ctypes.Structure):
    _fields_ = [("status", c_int32), ("required", c_size_t), ("base", c_size_t), ("len", c_size_t)]


class Decoded(ctypes.Structure):
    _fields_ = [
        ("status", c_int32),
        ("fields", c_size_t),
        ("len", c_size_t),
        ("required", c_size_t),
        ("number", c_uint64),
        ("offset", c_uint64),
    ]


class Pieces(ctypes.Structure):
    _fields_ = [
        ("status", c_int32),
        ("taken", c_size_t),
        ("fields", c_size_t),
        ("len", c_size_t),
        ("required", c_size_t),
        ("number", c_uint64),
        ("offset", c_uint64),
    ]


class End(ctypes.Structure):
    """An encoder, a decoder, or a reader of sections in pieces."""

    _fields_ = [("at", c_void_p)]


class EncoderSettings(ctypes.Structure):
    _fields_ = [
        ("max_capacity", c_uint64),
        ("max_blocked", c_uint64),
        ("capacity", c_uint64),
        ("most_unacknowledged", c_uint64),
        ("seed", c_uint64),
    ]


class DecoderSettings(ctypes.Structure):
    _fields_ = [("max_capacity", c_uint64), ("max_blocked", c_uint64), ("max_section_size", c_uint64)]


END = POINTER(End)
COPY = [c_char_p, c_size_t]  # where the library writes, and how many bytes there are
BYTES = [c_char_p, c_size_t]
FIELDS = [POINTER(Nv), c_size_t]
PLACES = [POINTER(CopiedField), c_size_t]

# Each function, without h3_qpack_: what it returns, and what it is passed.
FUNCTIONS: Dict[str, Tuple[Any, List[Any]]] = {
    "version": (c_uint32, []),
    "encoder_settings_default_versioned": (None, [c_uint32, POINTER(EncoderSettings)]),
    "encoder_new_versioned": (c_int, [END, c_uint32, POINTER(EncoderSettings)]),
    "encoder_del": (None, [END]),
    "encoder_encode": (Encoded, [END, c_uint64, *FIELDS, *COPY]),
    "encoder_section": (Written, [END, *COPY]),
    "encoder_get_encoder_streamlen": (c_size_t, [END]),
    "encoder_write_encoder": (c_size_t, [END, *COPY]),
    "encoder_read_decoder": (Received, [END, *BYTES]),
    "encoder_set_peer_settings": (c_int, [END, c_uint64, c_uint64]),
    "encoder_set_capacity": (c_int, [END, c_size_t]),
    "encoder_shrink": (c_int, [END, c_size_t]),
    "encoder_get_pending_capacity": (c_int, [END, POINTER(c_size_t)]),
    "encoder_get_num_blocked": (c_size_t, [END]),
    "encoder_get_num_unacked": (c_size_t, [END]),
    "encoder_get_icnt": (c_size_t, [END]),
    "encoder_get_krcnt": (c_size_t, [END]),
    "encoder_get_capacity": (c_size_t, [END]),
    "encoder_get_table_size": (c_size_t, [END]),
    "encoder_get_num_entries": (c_size_t, [END]),
    "encoder_entry": (CopiedField, [END, c_size_t, *COPY]),
    "decoder_settings_default_versioned": (None, [c_uint32, POINTER(DecoderSettings)]),
    "decoder_new_versioned": (c_int, [END, c_uint32, POINTER(DecoderSettings)]),
    "decoder_del": (None, [END]),
    "decoder_read_encoder": (Received, [END, *BYTES]),
    "decoder_peek_prefix": (Prefix, [END, *BYTES]),
    "decoder_decode": (Decoded, [END, c_uint64, *BYTES]),
    "decoder_fields": (Written, [END, *PLACES, *COPY]),
    "decoder_next_ready": (c_int, [END, POINTER(c_uint64)]),
    "decoder_get_icnt": (c_size_t, [END]),
    "decoder_get_num_blocked": (c_size_t, [END]),
    "decoder_get_capacity": (c_size_t, [END]),
    "decoder_get_table_size": (c_size_t, [END]),
    "decoder_get_num_entries": (c_size_t, [END]),
    "decoder_entry": (CopiedField, [END, c_size_t, *COPY]),
    "decoder_get_decoder_streamlen": (c_size_t, [END]),
    "decoder_write_decoder": (c_size_t, [END, *COPY]),
    "decoder_cancel_stream": (c_int, [END, c_uint64]),
    "section_reader_new": (c_int, [END, c_uint64]),
    "section_reader_del": (None, [END]),
    "section_reader_read_all": (Pieces, [END, END, *BYTES, c_int, *PLACES, *COPY]),
    "section_reader_field": (CopiedField, [END, *COPY]),
    "section_reader_get_pending": (c_size_t, [END]),
    "encode_stateless": (Written, [*FIELDS, *COPY]),
    "decode_stateless": (DecodedAlone, [*BYTES, c_uint64, *PLACES, *COPY]),
}


def find_library() -> str:
    """Returns the path or the name of the library."""
    own = os.path.join(os.path.dirname(__file__), "libh3_qpack.so.0")
    found = os.environ.get(VARIABLE) or (own if os.path.exists(own) else ctypes.util.find_library("h3_qpack"))
    if not found:
        raise ImportError(
            "h3_qpack: the C library is not here. Install the package, by 'pip install ./bindings/python' at the top of a "
            f"clone of its repository. Or set {VARIABLE} to the path of libh3_qpack.so.0."
        )
    return found


def load_library() -> Any:
    """Returns an object with the functions of the library."""
    found = find_library()
    functions: Any
    try:
        library = ctypes.CDLL(found)
        functions = type("Functions", (), {name: declare(library, name) for name in FUNCTIONS})
    except (OSError, AttributeError) as error:
        raise ImportError(f"h3_qpack: {found} is not the library: {error}. Correct {VARIABLE}, or unset it.") from error
    major, minor = split_version(functions.version())
    if major != VERSION >> 16 or minor < VERSION & 0xFFFF:
        ours = ".".join(map(str, split_version(VERSION)))
        raise ImportError(
            f"h3_qpack: {found} has the interface {major}.{minor}: install one that has {ours}, or a later one with the "
            "same first number"
        )
    return functions


def declare(library: ctypes.CDLL, name: str) -> Any:
    """Returns a function of the library, with its types."""
    function = library["h3_qpack_" + name]
    function.restype, function.argtypes = FUNCTIONS[name]
    return staticmethod(function)


def split_version(version: int) -> Tuple[int, int]:
    """Returns the major and the minor number."""
    return version >> 16, version & 0xFFFF


def library_version() -> Tuple[int, int]:
    """Returns the version of the library's interface, major and minor."""
    return split_version(calls.version())


calls = load_library()
