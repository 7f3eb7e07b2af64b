"""Fields, and how they go to the library and come back."""

import ctypes
import enum
import functools
from typing import Any, Iterable, List, NamedTuple, Tuple, Union

from . import _library as lib

Bytes = Union[bytes, bytearray, memoryview]


class Wish(enum.IntEnum):
    """What the encoder does with a field. `never_indexed` takes precedence over it."""

    NONE = 0
    """The encoder decides."""
    INSERT = 0x08
    """Insert the field if there is room, unless an entry equals it."""
    REUSE = 0x10
    """Insert nothing for the field. An entry that equals it is referenced."""


class Field(NamedTuple):
    """A line of a field section. HTTP/3 needs names in lowercase."""

    name: bytes
    value: bytes
    never_indexed: bool = False
    """Marks a secret: the field is a literal here and at every later hop (RFC 9204, section 7.1.3)."""
    wish: Wish = Wish.NONE
    """For the encoder. A decoded field has none."""

    @property
    def flags(self) -> int:
        """The flags of the field in C."""
        return lib.NEVER_INDEX if self.never_indexed else Wish(self.wish)


# What an encoder is passed for a field: a Field, or a tuple of its first parts.
FieldLike = Union[Field, Tuple[bytes, bytes], Tuple[bytes, bytes, bool], Tuple[bytes, bytes, bool, Wish]]


def lend_bytes(data: Bytes) -> bytes:
    """Returns the bytes of an argument."""
    return data if isinstance(data, bytes) else bytes(memoryview(data))


def lend_fields(fields: Iterable[FieldLike]) -> Tuple[Any, int]:
    """Returns an array of fields for the library, which refers to their bytes, and how many there are."""
    lent = [Field(*field) for field in fields]
    nva = [lib.Nv(it.name, len(it.name), it.value, len(it.value), it.flags) for it in lent]
    return array_type(lib.Nv, len(nva))(*nva), len(nva)


def list_fields(copied: Iterable[lib.CopiedField], text: bytes) -> List[Field]:
    """Returns the fields that the library copied to a text, one after the other."""
    fields, at = [], 0
    for it in copied:
        end = at + it.namelen
        never_indexed = bool(it.flags & lib.NEVER_INDEX)
        fields.append(Field(text[at:end], text[end : end + it.valuelen], never_indexed))
        at = end + it.valuelen
    return fields


def array_type(item: Any, size: int) -> Any:
    """Returns a type of arrays with room for that many items."""
    return array_type_of_bits(item, max(size - 1, 0).bit_length())


@functools.lru_cache(maxsize=None)
def array_type_of_bits(item: Any, bits: int) -> Any:
    """Returns a type of arrays whose room is a power of two. ctypes would make a new type for each size, which takes
    longer than a call."""
    return item * (1 << bits)


def make_places(count: int) -> Any:
    """Returns room for the lengths of that many fields, or of more."""
    return array_type(lib.CopiedField, count)()


def make_room(size: int) -> "ctypes.Array[ctypes.c_char]":
    """Returns a buffer of that many bytes, or of more."""
    room: "ctypes.Array[ctypes.c_char]" = array_type(ctypes.c_char, size)()
    return room


def taken(room: "ctypes.Array[ctypes.c_char]", size: int) -> bytes:
    """Returns the first bytes of a buffer."""
    return ctypes.string_at(room, size)
