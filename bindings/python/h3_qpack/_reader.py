"""Sections in pieces."""

import ctypes
import threading
from types import TracebackType
from typing import Any, List, NamedTuple, Optional, Type

from . import _library as lib
from ._decoder import Decoder
from ._end import stream_number
from ._errors import EndClosed, check
from ._fields import Bytes, Field, lend_bytes, list_fields, make_places, make_room, taken

# The room for what one call of the library copies. More is copied by further calls.
FIELDS = 32
TEXT = 2048


class Pieces(NamedTuple):
    """What a piece of a section gives."""

    fields: List[Field]
    """The fields that it completes."""
    ended: bool
    """Whether the section is over: the reader is at the start of the stream's next section."""


class SectionReader:
    """Reads the sections of a stream below 2^62, which come in pieces of any size.

    It gives each field as soon as its line is whole, and keeps at most `longest_section(max_section_size)` bytes. It is a
    context manager, which is closed at its end. To give up a section, call `Decoder.cancel_stream` too.

    >>> with Decoder() as decoder, SectionReader(0) as reader:
    ...     print(reader.read(decoder, bytes.fromhex("0000d121")).fields)
    ...     print(reader.read(decoder, bytes.fromhex("780179"), fin=True))
    [Field(name=b':method', value=b'GET', never_indexed=False, wish=<Wish.NONE: 0>)]
    Pieces(fields=[Field(name=b'x', value=b'y', never_indexed=False, wish=<Wish.NONE: 0>)], ended=True)
    """

    def __init__(self, stream_id: int) -> None:
        self._end = lib.End()
        self._lock = threading.RLock()
        check(lib.calls.section_reader_new(self._end, stream_number(stream_id)))

    def __enter__(self) -> "SectionReader":
        return self

    def __exit__(
        self,
        error_type: Optional[Type[BaseException]],
        error: Optional[BaseException],
        traceback: Optional[TracebackType],
    ) -> None:
        self.close()

    def __del__(self) -> None:
        if hasattr(self, "_lock"):
            self.close()

    def close(self) -> None:
        """Frees the memory. Later calls raise EndClosed, except that close does nothing."""
        with self._lock:
            lib.calls.section_reader_del(self._end)

    @property
    def closed(self) -> bool:
        """Whether it was closed."""
        return not self._end.at

    @property
    def pending(self) -> int:
        """How many bytes it keeps: of a prefix or of a field line that is not whole."""
        with self._lock:
            count: int = lib.calls.section_reader_get_pending(self._end)
            return count

    def read(self, decoder: Decoder, data: Bytes, fin: bool = False) -> Pieces:
        """Reads the next bytes of a section, which continue those of earlier calls.

        With `fin` the section ends with them. Pass the same decoder each time.

        Raises as `Decoder.decode` does. With StreamBlocked, keep the bytes after the first `taken` ones, and pass them when
        `next_ready` returns the stream. With OutOfMemory, pass the bytes after the first `taken` ones again later: the
        fields before them are in `fields`.
        """
        lent = lend_bytes(data)
        fields: List[Field] = []
        places, room = make_places(FIELDS), make_room(TEXT)
        at = 0
        with self._lock, decoder._lock:
            if self.closed or decoder.closed:
                raise EndClosed()
            while True:
                rest = lent[at:] if at else lent
                read = lib.calls.section_reader_read_all(
                    self._end, decoder._end, rest, len(rest), fin, places, len(places), room, len(room)
                )
                at += read.taken
                fields += list_fields(places[: read.fields], taken(room, read.len))
                if read.status == lib.NO_ROOM:
                    fields += self._field()
                elif read.status != lib.FIELD:
                    break
        return self._told(read, at, fields)

    def _field(self) -> List[Field]:
        """Returns the field that was read last, and did not fit."""
        lengths = lib.calls.section_reader_field(self._end, None, 0)
        room = make_room(lengths.namelen + lengths.valuelen)
        copied = lib.calls.section_reader_field(self._end, room, len(room))
        return list_fields([copied], taken(room, copied.namelen + copied.valuelen))

    def _told(self, read: Any, at: int, fields: List[Field]) -> Pieces:
        """Returns the fields, or raises the error, with how many bytes were read and the fields before it."""
        ended = read.status == lib.END_OF_SECTION
        if not ended:
            read.taken = at
            check(read.status, result=read, fields=fields)
        return Pieces(fields, ended)
