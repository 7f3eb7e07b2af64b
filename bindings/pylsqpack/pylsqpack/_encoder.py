"""The encoder of a connection."""

from typing import List, Tuple

import h3_qpack

from ._errors import DecoderStreamError

# The first capacity that h3_qpack does not take, in bytes.
TOO_MUCH = 1 << 30


class Encoder:
    """Encodes the sections that this side sends. Until `apply_settings` any peer can decode them."""

    def __init__(self) -> None:
        self._encoder = h3_qpack.Encoder()

    def apply_settings(self, max_table_capacity: int, blocked_streams: int) -> bytes:
        """Applies the settings that the peer sent. Returns the bytes for the encoder stream.

        The capacity of the table is the peer's maximum, in bytes, as in pylsqpack. If that is 2^30 or more, there is no
        table.

        Raises ValueError if a setting is below 0, or `blocked_streams` is 2^62 or more. Raises RuntimeError if other
        settings were applied.
        """
        capacity = 0 if max_table_capacity >= TOO_MUCH else max_table_capacity
        try:
            self._encoder.set_peer_settings(capacity, blocked_streams)
        except h3_qpack.QpackConnectionError as error:
            raise RuntimeError("lsqpack_enc_init failed") from error
        if capacity:
            self._encoder.set_capacity(capacity)
        return self._encoder.take_encoder_stream()

    def encode(self, stream_id: int, headers: List[Tuple[bytes, bytes]]) -> Tuple[bytes, bytes]:
        """Encodes fields, in order, as a section of a stream. Returns the bytes for the encoder stream, and the section.

        Raises ValueError if the fields are no list of pairs of bytes, or the stream is 2^62 or more. Raises
        DecoderStreamError if `feed_decoder` did.
        """
        check_headers(headers)
        try:
            section = self._encoder.encode(stream_id, headers).section
        except h3_qpack.QpackConnectionError as error:
            raise DecoderStreamError("lsqpack_enc_start_header failed") from error
        return self._encoder.take_encoder_stream(), section

    def feed_decoder(self, data: bytes) -> None:
        """Reads the next bytes of the peer's decoder stream, in pieces of any size.

        Raises DecoderStreamError if an instruction is invalid.
        """
        try:
            self._encoder.receive(data)
        except h3_qpack.QpackConnectionError as error:
            raise DecoderStreamError("lsqpack_enc_decoder_in failed") from error


def check_headers(headers: object) -> None:
    """Raises the ValueError of pylsqpack unless these are a list of pairs of bytes."""
    if not isinstance(headers, list):
        raise ValueError("headers must be a list")
    for header in headers:
        if not isinstance(header, tuple) or len(header) != 2:
            raise ValueError("the header must be a two-tuple")
        if not all(isinstance(part, bytes) for part in header):
            raise ValueError("the header's name and value must be bytes")
