"""Sections that use the static table alone, without an encoder or a decoder."""

from typing import Iterable, List

from . import _library as lib
from ._end import in_range
from ._errors import check
from ._fields import Bytes, Field, FieldLike, lend_bytes, lend_fields, list_fields, make_places, make_room, taken

# The room that most sections need, in fields and in bytes.
USUAL_FIELDS = 32
USUAL_SECTION = 512


def encode_stateless(fields: Iterable[FieldLike]) -> bytes:
    """Returns the section of some fields. Any decoder can read it.

    >>> encode_stateless([(b":method", b"GET")]).hex()
    '0000d1'
    """
    (nva, count), room = lend_fields(fields), make_room(USUAL_SECTION)
    written = lib.calls.encode_stateless(nva, count, room, len(room))
    if written.status == lib.NO_ROOM:
        room = make_room(written.len)
        written = lib.calls.encode_stateless(nva, count, room, len(room))
    check(written.status)
    return taken(room, written.len)


def decode_stateless(section: Bytes, max_section_size: int = 65536) -> List[Field]:
    """Returns the fields of a section. `max_section_size` is the limit of Decoder.

    Raises SectionTooLarge, DecompressionFailed and OutOfMemory, as Decoder.decode does.

    >>> decode_stateless(b"\\x00\\x00\\xd1")[0].value
    b'GET'
    """
    limit, lent = in_range(max_section_size, 1 << 64, "max_section_size must be below 2^64"), lend_bytes(section)
    places, room = make_places(USUAL_FIELDS), make_room(USUAL_SECTION)
    decoded = lib.calls.decode_stateless(lent, len(lent), limit, places, len(places), room, len(room))
    if decoded.status == lib.NO_ROOM:
        places, room = make_places(decoded.fields), make_room(decoded.len)
        decoded = lib.calls.decode_stateless(lent, len(lent), limit, places, len(places), room, len(room))
    check(decoded.status, result=decoded)
    return list_fields(places[: decoded.fields], taken(room, decoded.len))
