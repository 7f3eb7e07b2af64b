"""Why a call failed."""


class DecompressionFailed(ValueError):
    """A section is invalid, or too many streams are blocked. Close the connection with 0x200."""


class EncoderStreamError(ValueError):
    """An instruction of the peer's encoder stream is invalid. Close the connection with 0x201."""


class DecoderStreamError(ValueError):
    """An instruction of the peer's decoder stream is invalid. Close the connection with 0x202."""


class StreamBlocked(ValueError):
    """The section requires insertions that have not arrived. `feed_encoder` returns its stream when they have."""
