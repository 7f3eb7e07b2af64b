"""The decoder of a connection."""

import ctypes
from typing import List, NamedTuple, Optional

from . import _library as lib
from ._end import End, stream_number
from ._errors import check
from ._fields import Bytes, Field, lend_bytes, list_fields, make_places, make_room, taken


def longest_section(max_section_size: int) -> int:
    """Returns the length, in bytes, of the longest section whose fields can be within a `max_section_size`.

    A decoder rejects a longer one unread, with SectionTooLarge, so a buffer for a HEADERS frame needs no more room.
    """
    return 4 * max_section_size + 20


class Prefix(NamedTuple):
    """What the prefix of a section says (RFC 9204, section 4.5.1)."""

    required: int
    """The Required Insert Count, 0 if the section references no entry of the dynamic table."""
    base: int
    """The Base, from which its lines count the entries that they reference."""
    length: int
    """The length of the prefix, in bytes."""
    blocked: bool
    """Whether the section waits for insertions: until `insert_count` is `required` or more."""


class Decoder(End):
    """Decodes the sections that this side receives (RFC 9204, section 2.2).

    The settings are those that this side sends: SETTINGS_QPACK_MAX_TABLE_CAPACITY, in bytes, below 2^30;
    SETTINGS_QPACK_BLOCKED_STREAMS, below 65,535; and SETTINGS_MAX_FIELD_SECTION_SIZE, in bytes, the sum over the fields
    of name, value and 32 bytes each. The last is 65,536 unless it is given, and is to be sent. 2^64 - 1 is no limit.

    Raises InvalidArgument if a setting is out of its range.
    """

    kind = "decoder"
    settings_range = "max_capacity must be below 2^30, max_blocked below 65,535, and max_section_size below 2^64"

    def __init__(self, *, max_capacity: int = 0, max_blocked: int = 0, max_section_size: Optional[int] = None) -> None:
        given = {"max_capacity": max_capacity, "max_blocked": max_blocked, "max_section_size": max_section_size}
        super().__init__(lib.DecoderSettings(), given)

    def receive(self, data: Bytes) -> None:
        """Reads the next bytes of the peer's encoder stream, in pieces of any size.

        Then call `next_ready`: sections that were blocked may be decodable now.

        Raises EncoderStreamError if an instruction is invalid, and DecompressionFailed if `decode` did: close the
        connection. With OutOfMemory, pass the bytes after the first `taken` ones again later.
        """
        lent = lend_bytes(data)
        received = self._call("read_encoder", lent, len(lent))
        check(received.status, result=received)

    def peek_prefix(self, section: Bytes) -> Prefix:
        """Reads the prefix of a section, whose lines may be missing.

        It changes nothing: call it to know at once whether the section waits.

        Raises DecompressionFailed if the prefix is invalid, or not whole: read more of the section, up to 20 bytes, or
        close the connection.
        """
        lent = lend_bytes(section)
        prefix = self._call("peek_prefix", lent, len(lent))
        if prefix.status != lib.BLOCKED:
            check(prefix.status)
        return Prefix(prefix.required, prefix.base, prefix.len, prefix.status == lib.BLOCKED)

    def decode(self, stream_id: int, section: Bytes) -> List[Field]:
        """Decodes a whole section of a stream below 2^62. Pass the sections of a stream in order.

        Raises:
            StreamBlocked: keep the section, and decode it again when `next_ready` returns its stream.
            SectionTooLarge: reject the message, and call `cancel_stream`.
            DecompressionFailed, or EncoderStreamError if `receive` did: close the connection.
            InvalidArgument: the stream is 2^62 or more.
            OutOfMemory: decode the section again later.
        """
        lent = lend_bytes(section)
        with self._lock:
            decoded = self._call("decode", stream_number(stream_id), lent, len(lent))
            check(decoded.status, result=decoded)
            places, room = make_places(decoded.fields), make_room(decoded.len)
            check(self._call("fields", places, len(places), room, len(room)).status)
        return list_fields(places[: decoded.fields], taken(room, decoded.len))

    def next_ready(self) -> Optional[int]:
        """Returns a blocked stream whose section can be decoded now, or None.

        Decode that section, or cancel the stream, before the next call: until then it returns the same stream.
        """
        stream_id = ctypes.c_uint64()
        return stream_id.value if self._call("next_ready", stream_id) else None

    def cancel_stream(self, stream_id: int) -> None:
        """Gives up the sections of a stream that are not decoded.

        Call it when the stream is reset, or when you stop reading it. It is allowed for any stream below 2^62.
        """
        check(self._call("cancel_stream", stream_number(stream_id)))

    def take_decoder_stream(self) -> bytes:
        """Returns the bytes that are to be sent on the decoder stream. The decoder does not keep them.

        Call it after each `decode`, `receive` and `cancel_stream`.
        """
        return self._take("get_decoder_streamlen", "write_decoder")
