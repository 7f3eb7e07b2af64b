"""QPACK, the header compression of HTTP/3 (RFC 9204), over the C library h3_qpack.

Each side of a connection has an Encoder, made from the settings that the peer sent, and a Decoder, made from the
settings that this side sent. The package does no I/O: pass it the bytes that you received, in order and without the
stream type (0x02 or 0x03), and send the bytes that it returns.

>>> with Encoder(max_capacity=4096, max_blocked=16) as encoder, Decoder(max_capacity=4096, max_blocked=16) as decoder:
...     encoded = encoder.encode(4, [(b"user-agent", b"curl/8"), (b"authorization", b"Basic Og==", True)])
...     try:
...         decoder.decode(4, encoded.section)
...     except StreamBlocked as blocked:
...         print("blocked until insertion", blocked.required)
...     decoder.receive(encoder.take_encoder_stream())
...     while (stream_id := decoder.next_ready()) is not None:
...         for field in decoder.decode(stream_id, encoded.section):
...             print(field.name, field.value, field.never_indexed)
...     encoder.receive(decoder.take_decoder_stream())
blocked until insertion 1
b'user-agent' b'curl/8' False
b'authorization' b'Basic Og==' True

An error is a QpackError. If it is a QpackConnectionError, close the connection with its code.
"""

from ._decoder import Decoder, Prefix, longest_section
from ._encoder import Encoded, Encoder
from ._errors import (
    DecoderStreamError,
    DecompressionFailed,
    EncoderStreamError,
    EndClosed,
    EntriesHeld,
    InvalidArgument,
    OutOfMemory,
    QpackConnectionError,
    QpackError,
    SectionTooLarge,
    SettingsError,
    StreamBlocked,
    VersionMismatch,
)
from ._fields import Field, FieldLike, Wish
from ._library import library_version
from ._reader import Pieces, SectionReader
from ._stateless import decode_stateless, encode_stateless

__all__ = [
    "Decoder",
    "DecoderStreamError",
    "DecompressionFailed",
    "Encoded",
    "Encoder",
    "EncoderStreamError",
    "EndClosed",
    "EntriesHeld",
    "Field",
    "FieldLike",
    "InvalidArgument",
    "OutOfMemory",
    "Pieces",
    "Prefix",
    "QpackConnectionError",
    "QpackError",
    "SectionReader",
    "SectionTooLarge",
    "SettingsError",
    "StreamBlocked",
    "VersionMismatch",
    "Wish",
    "decode_stateless",
    "encode_stateless",
    "library_version",
    "longest_section",
]
