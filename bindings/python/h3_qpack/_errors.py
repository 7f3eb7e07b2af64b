"""Why a call failed."""

from typing import TYPE_CHECKING, Dict, Optional, Sequence, Type

from . import _library as lib

if TYPE_CHECKING:
    from ._fields import Field


def write_place(unit: str, number: int, offset: int) -> str:
    """Returns the place of what is invalid, behind what is said of it."""
    return f", at {unit} {number}, byte {offset}" if number else ""


class QpackError(Exception):
    """A call failed. Unless it is a QpackConnectionError, the connection goes on."""


class QpackConnectionError(QpackError):
    """The peer broke a rule: close the connection with `code`. The end is unusable.

    The code is of RFC 9204, section 6, or of RFC 9114, section 8.1.

    Each later call of the end that can fail raises the same error. `number` is the number, from 1, of the invalid field
    line of the section, or instruction of the stream. `offset` is the position of its first byte in the section, or on
    the stream after its type. Both are 0 if there is none: the prefix is invalid, or an earlier call reported the error.
    """

    code = 0
    cause = ""
    # The cause where the place is known, if that is less than it is otherwise.
    cause_at = ""
    unit = "instruction"

    def __init__(self, number: int = 0, offset: int = 0) -> None:
        cause = self.cause_at if number and self.cause_at else self.cause
        super().__init__(f"{cause}{write_place(self.unit, number, offset)}: close the connection with {self.code:#x}")
        self.number = number
        self.offset = offset


class DecompressionFailed(QpackConnectionError):
    """A section is invalid, or one stream too many is blocked."""

    code = 0x200
    cause = "a section is invalid, or too many streams are blocked"
    cause_at = "a section is invalid"
    unit = "line"


class EncoderStreamError(QpackConnectionError):
    """An instruction of the peer's encoder stream is invalid."""

    code = 0x201
    cause = "the peer's encoder stream is invalid"


class DecoderStreamError(QpackConnectionError):
    """An instruction of the peer's decoder stream is invalid, or the peer changed its maximum capacity."""

    code = 0x202
    cause = "the peer's decoder stream is invalid"


class SettingsError(QpackConnectionError):
    """The peer lowered its limit of blocked streams."""

    code = 0x109
    cause = "the peer lowered its limit of blocked streams"


class StreamBlocked(QpackError):
    """The section requires insertions that have not arrived.

    Keep the section, and decode it again when `Decoder.next_ready` returns its stream. `required` is its Required
    Insert Count. `taken` is, from `SectionReader.read`, how many bytes were read: keep those after them.
    """

    def __init__(self, required: int, taken: int = 0) -> None:
        super().__init__(f"the section is blocked until insertion {required}: keep it until next_ready returns its stream")
        self.required = required
        self.taken = taken


class SectionTooLarge(QpackError):
    """The section exceeds `max_section_size`. Reject the message, and call `Decoder.cancel_stream`.

    `number` is the line at which it does, or 0 if the section is too long to be within it. `offset` is the position of its
    first byte in the section.
    """

    def __init__(self, number: int = 0, offset: int = 0) -> None:
        place = write_place("line", number, offset)
        super().__init__(f"the section is too large{place}: reject the message, and cancel its stream")
        self.number = number
        self.offset = offset


class EntriesHeld(QpackError):
    """The capacity would evict entries that the peer may still reference. Set it again after more acknowledgments."""

    def __init__(self) -> None:
        super().__init__("entries may still be referenced: set the capacity after more acknowledgments")


class InvalidArgument(QpackError, ValueError):
    """An argument is out of its range. Nothing was done."""


class OutOfMemory(QpackError, MemoryError):
    """`malloc` or `realloc` failed. Repeat the call later.

    `taken` is, from `receive` and `SectionReader.read`, how many bytes were read. Pass the rest later, even if it is empty.
    `fields` are, from the latter, those of the bytes that were read. A MemoryError that is not an OutOfMemory is Python's
    own: close the connection, since what the call returned is lost.
    """

    def __init__(self, taken: int = 0, fields: Sequence["Field"] = ()) -> None:
        super().__init__("out of memory: repeat the call later")
        self.taken = taken
        self.fields = list(fields)


class VersionMismatch(QpackError):
    """The library is of another version than this package."""

    def __init__(self) -> None:
        super().__init__("the library is of another version: install the one that this package is of")


class EndClosed(QpackError, ValueError):
    """The encoder or decoder was closed. Make another."""

    def __init__(self) -> None:
        super().__init__("the encoder or decoder is closed: make another")


CODES: Dict[int, Type[QpackConnectionError]] = {
    it.code: it for it in (DecompressionFailed, EncoderStreamError, DecoderStreamError, SettingsError)
}


def check(
    status: int,
    range_text: str = "an argument is out of its range",
    result: Optional[object] = None,
    fields: Sequence["Field"] = (),
) -> None:
    """Raises the error of a status. `result` is the struct that has it, which may say more; `fields` came before it."""
    if status == lib.OK:
        return
    number, offset = getattr(result, "number", 0), getattr(result, "offset", 0)
    if status in CODES:
        raise CODES[status](number, offset)
    if status == lib.BLOCKED:
        raise StreamBlocked(getattr(result, "required", 0), getattr(result, "taken", 0))
    if status == lib.TOO_LARGE:
        raise SectionTooLarge(number, offset)
    if status == lib.INVALID:
        raise InvalidArgument(range_text)
    if status == lib.NO_MEMORY:
        raise OutOfMemory(getattr(result, "taken", 0), fields)
    if status == lib.HELD:
        raise EntriesHeld()
    if status == lib.VERSION_MISMATCH:
        raise VersionMismatch()
    raise QpackError(f"unknown status {status}: install the library that this package is of")
