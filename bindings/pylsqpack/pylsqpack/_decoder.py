"""The decoder of a connection."""

from typing import Dict, List, NamedTuple, Tuple

import h3_qpack

from ._errors import DecompressionFailed, EncoderStreamError, StreamBlocked
from ._increments import sum_increments, write_increment

NO_LIMIT = (1 << 64) - 1


class Kept(NamedTuple):
    """A section that is blocked until that many insertions have arrived."""

    section: bytes
    required: int


class Decoder:
    """Decodes the sections that this side receives.

    `max_table_capacity`, in bytes, below 2^30, and `blocked_streams`, below 65,535, are the settings that this side sends.
    Sections of any size are decoded, as in pylsqpack.

    Raises ValueError if a setting is out of its range.
    """

    def __init__(self, max_table_capacity: int, blocked_streams: int) -> None:
        self._decoder = h3_qpack.Decoder(
            max_capacity=max_table_capacity, max_blocked=blocked_streams, max_section_size=NO_LIMIT
        )
        self._kept: Dict[int, Kept] = {}
        self._unreported = 0  # insertions that no bytes for the decoder stream report yet

    def feed_encoder(self, data: bytes) -> List[int]:
        """Reads the next bytes of the peer's encoder stream, in pieces of any size.

        Returns each stream whose section can be decoded now, in the order in which they were blocked. Call
        `resume_header` for each.

        Raises EncoderStreamError if an instruction is invalid.
        """
        try:
            self._decoder.receive(data)
        except h3_qpack.QpackConnectionError as error:
            raise EncoderStreamError("lsqpack_dec_enc_in failed") from error
        # The interface returns no bytes here. A number in their place does not grow with each piece.
        self._unreported += sum_increments(self._decoder.take_decoder_stream())
        arrived = self._decoder.insert_count
        return [stream_id for stream_id, kept in self._kept.items() if kept.required <= arrived]

    def feed_header(self, stream_id: int, data: bytes) -> Tuple[bytes, List[Tuple[bytes, bytes]]]:
        """Decodes a whole section of a stream. Returns the bytes for the decoder stream, and the fields.

        Raises:
            StreamBlocked: the section is kept until `resume_header`.
            DecompressionFailed: the section is invalid, or one stream too many is blocked.
            ValueError: a section of the stream is blocked already, or the stream is 2^62 or more.
        """
        if stream_id in self._kept:
            raise ValueError(f"a header block for stream {stream_id} already exists")
        return self._decode(stream_id, bytes(data), "lsqpack_dec_header_in")

    def resume_header(self, stream_id: int) -> Tuple[bytes, List[Tuple[bytes, bytes]]]:
        """Decodes the section of a stream that `feed_encoder` returned. Returns what `feed_header` does.

        Raises:
            StreamBlocked: the insertions have not arrived. The section stays kept.
            DecompressionFailed: the section is invalid.
            h3_qpack.OutOfMemory: there is no memory. The section stays kept.
            ValueError: no section of the stream is kept.
        """
        if stream_id not in self._kept:
            raise ValueError(f"no pending header block for stream {stream_id}")
        try:
            decoded = self._decode(stream_id, self._kept[stream_id].section, "lsqpack_dec_header_read")
        except DecompressionFailed:
            del self._kept[stream_id]
            raise
        del self._kept[stream_id]
        return decoded

    def _decode(self, stream_id: int, section: bytes, call: str) -> Tuple[bytes, List[Tuple[bytes, bytes]]]:
        """Decodes a section, or keeps it. An invalid one is an error of that call of ls-qpack."""
        try:
            fields = self._decoder.decode(stream_id, section)
        except h3_qpack.StreamBlocked as error:
            self._kept[stream_id] = Kept(section, error.required)
            raise StreamBlocked(f"stream {stream_id} is blocked") from error
        except h3_qpack.QpackConnectionError as error:
            raise DecompressionFailed(f"{call} for stream {stream_id} failed") from error
        return self._take_instructions(), [(field.name, field.value) for field in fields]

    def _take_instructions(self) -> bytes:
        """Returns the bytes for the decoder stream: one increment for all insertions since, and what follows."""
        increment = write_increment(self._unreported) if self._unreported else b""
        self._unreported = 0
        return increment + self._decoder.take_decoder_stream()
