"""The interface of pylsqpack 0.3.23 over the package h3_qpack, so that aioquic runs unchanged.

Each error is a ValueError, as in pylsqpack. It says no more than pylsqpack's: `__cause__` is the error of h3_qpack, with
the place of what is invalid. After an error that closes the connection, each later call of that end raises one too.

>>> encoder, decoder = Encoder(), Decoder(4096, 16)
>>> instructions = encoder.apply_settings(4096, 16)
>>> control, section = encoder.encode(4, [(b"user-agent", b"curl/8")])
>>> try:
...     decoder.feed_header(4, section)
... except StreamBlocked as error:
...     print(error)
stream 4 is blocked
>>> decoder.feed_encoder(instructions + control)
[4]
>>> acknowledgment, headers = decoder.resume_header(4)
>>> headers
[(b'user-agent', b'curl/8')]
>>> encoder.feed_decoder(acknowledgment)
"""

from ._decoder import Decoder
from ._encoder import Encoder
from ._errors import DecoderStreamError, DecompressionFailed, EncoderStreamError, StreamBlocked

__all__ = ["Decoder", "DecoderStreamError", "DecompressionFailed", "Encoder", "EncoderStreamError", "StreamBlocked"]

# The version of pylsqpack whose interface this is.
__version__ = "0.3.23"
