"""The encoder of a connection."""

import ctypes
import secrets
from typing import Any, Iterable, NamedTuple, Optional

from . import _library as lib
from ._end import End, in_range, stream_number
from ._errors import check
from ._fields import Bytes, FieldLike, lend_bytes, lend_fields, make_room, taken

# The room for a section that most fit in, in bytes.
USUAL_SECTION = 512


class Encoded(NamedTuple):
    """A section, as `Encoder.encode` returns it."""

    section: bytes
    """The bytes for the stream. Send what `take_encoder_stream` returns before them."""
    required: int
    """The Required Insert Count. If it is above 0, the peer acknowledges the section."""
    size: int
    """The sum over the fields of name, value and 32 bytes each. The peer may reject a section above its
    SETTINGS_MAX_FIELD_SECTION_SIZE."""


class Encoder(End):
    """Encodes the sections that this side sends (RFC 9204, section 2.1).

    `max_capacity` and `max_blocked` are the peer's SETTINGS_QPACK_MAX_TABLE_CAPACITY, in bytes, below 2^30, and
    SETTINGS_QPACK_BLOCKED_STREAMS. For a peer with a capacity of 2^30 or more pass 0.

    `capacity` is the table capacity in bytes, by default 16,384, or `max_capacity` if that is less. While
    `most_unacknowledged` sections that reference the table are unacknowledged, by default 100, sections reference only
    the static table.

    `seed` is what the hashes of the table's fields are computed with, below 2^64, by default a random number. With one
    that nobody can guess, nobody can choose fields that take long to insert. No byte that is written depends on it.

    Raises InvalidArgument if a setting is out of its range.
    """

    kind = "encoder"
    settings_range = "max_capacity must be below 2^30, and the other settings 0 or more; for a peer with more pass 0"

    def __init__(
        self,
        *,
        max_capacity: int = 0,
        max_blocked: int = 0,
        capacity: Optional[int] = None,
        most_unacknowledged: Optional[int] = None,
        seed: Optional[int] = None,
    ) -> None:
        given = {
            "max_capacity": max_capacity,
            "max_blocked": max_blocked,
            "capacity": capacity,
            "most_unacknowledged": most_unacknowledged,
            "seed": secrets.randbits(64) if seed is None else seed,
        }
        super().__init__(lib.EncoderSettings(), given)

    def encode(self, stream_id: int, fields: Iterable[FieldLike]) -> Encoded:
        """Encodes fields, in order, as a section of a stream below 2^62.

        Send what `take_encoder_stream` returns on the encoder stream, and then the section on the stream.

        Raises InvalidArgument for a stream of 2^62 or more, and DecoderStreamError if `receive` did.
        """
        (nva, count), room = lend_fields(fields), make_room(USUAL_SECTION)
        with self._lock:
            encoded = self._call("encode", stream_number(stream_id), nva, count, room, len(room))
            if encoded.status == lib.NO_ROOM:
                room = make_room(encoded.len)
                check(self._call("section", room, len(room)).status)
            else:
                check(encoded.status)
        return Encoded(taken(room, encoded.len), encoded.required, encoded.size)

    def take_encoder_stream(self) -> bytes:
        """Returns the bytes that are to be sent on the encoder stream. The encoder does not keep them."""
        return self._take("get_encoder_streamlen", "write_encoder")

    def receive(self, data: Bytes) -> None:
        """Reads the next bytes of the peer's decoder stream, in pieces of any size.

        Raises DecoderStreamError if an instruction is invalid: close the connection.
        """
        lent = lend_bytes(data)
        received = self._call("read_decoder", lent, len(lent))
        check(received.status, result=received)

    def set_peer_settings(self, max_capacity: int, max_blocked: int) -> None:
        """Applies the peer's SETTINGS to an encoder that was made before they arrived.

        Make such an encoder without settings, or for 0-RTT with those that were remembered. Pass 0 for a setting that is
        missing. Until this call an encoder without settings writes sections that any peer can decode.

        Raises DecoderStreamError if the encoder has another maximum, above 0, and SettingsError if it has a greater limit
        of blocked streams: close the connection. Raises InvalidArgument for a new maximum of 2^30 or more: pass 0.
        """
        range_text = "max_capacity must be below 2^30, and max_blocked 0 or more; for a peer with more pass 0"
        given = [in_range(it, 1 << 62, range_text) for it in (max_capacity, max_blocked)]
        check(self._call("set_peer_settings", *given), range_text)

    def set_capacity(self, capacity: int) -> None:
        """Sets the capacity of the table, in bytes. An error changes nothing.

        Raises InvalidArgument above the peer's maximum, and EntriesHeld while the peer may still reference entries that
        would be evicted. On a busy connection it always may: call `shrink`.
        """
        self._call_with_capacity("set_capacity", capacity)

    def shrink(self, capacity: int) -> None:
        """Sets the capacity of the table, in bytes, as `set_capacity` does, or has it wait while the peer may still
        reference an entry that does not fit. The next `encode` that finds no such entry sets it, and announces it before
        its section. An error changes nothing.

        While it waits, sections reference only the static table, and nothing is inserted. So it comes once all sections
        that reference those entries are acknowledged or cancelled, and the insertions acknowledged. A later call, or a
        capacity that `set_capacity` sets, takes its place.

        Raises InvalidArgument above the peer's maximum.
        """
        self._call_with_capacity("shrink", capacity)

    def _call_with_capacity(self, call: str, capacity: int) -> None:
        """Makes a call with a capacity, which is refused above the peer's maximum."""
        range_text = "the capacity must be at most the peer's max_capacity"
        check(self._call(call, in_range(capacity, 1 << 30, range_text)), range_text)

    @property
    def pending_capacity(self) -> Optional[int]:
        """The capacity that waits, in bytes, or None."""
        capacity = ctypes.c_size_t()
        return capacity.value if self._call("get_pending_capacity", capacity) else None

    @property
    def unacknowledged(self) -> int:
        """How many sections that reference the table are unacknowledged."""
        return self._count("get_num_unacked")

    @property
    def known_received_count(self) -> int:
        """How many insertions the peer is known to have received."""
        return self._count("get_krcnt")
