"""What an encoder and a decoder share."""

import ctypes
import threading
from types import TracebackType
from typing import Any, Dict, List, Optional, Type, TypeVar

from . import _library as lib
from ._errors import EndClosed, InvalidArgument, check
from ._fields import Field, list_fields, make_room, taken

Self = TypeVar("Self", bound="End")


class End:
    """An encoder or a decoder: a context manager, which is closed at its end."""

    kind = ""
    settings_range = ""

    def __init__(self, settings: Any, given: Dict[str, Optional[int]]) -> None:
        self._end = lib.End()
        self._lock = threading.RLock()
        getattr(lib.calls, f"{self.kind}_settings_default_versioned")(lib.VERSION, settings)
        for name, value in given.items():
            if value is not None:
                setattr(settings, name, in_range(value, 1 << 64, self.settings_range))
        check(getattr(lib.calls, f"{self.kind}_new_versioned")(self._end, lib.VERSION, settings), self.settings_range)

    def __enter__(self: Self) -> Self:
        return self

    def __exit__(
        self,
        error_type: Optional[Type[BaseException]],
        error: Optional[BaseException],
        traceback: Optional[TracebackType],
    ) -> None:
        self.close()

    def __del__(self) -> None:
        if hasattr(self, "_lock"):
            self.close()

    def close(self) -> None:
        """Frees the memory. Later calls raise EndClosed, except that close does nothing."""
        with self._lock:
            getattr(lib.calls, f"{self.kind}_del")(self._end)

    @property
    def closed(self) -> bool:
        """Whether it was closed."""
        return not self._end.at

    @property
    def insert_count(self) -> int:
        """How many insertions were made since the connection began."""
        return self._count("get_icnt")

    @property
    def blocked(self) -> int:
        """How many streams are blocked; of an encoder, how many may be blocked at the peer."""
        return self._count("get_num_blocked")

    @property
    def capacity(self) -> int:
        """The capacity of the table, in bytes. It is 0 until the encoder sets one."""
        return self._count("get_capacity")

    @property
    def table_size(self) -> int:
        """The size of the table, in bytes: the sum over its entries of name, value and 32 bytes each."""
        return self._count("get_table_size")

    def entries(self) -> List[Field]:
        """Returns the entries of the table, the newest first."""
        with self._lock:
            room, fields = make_room(self.table_size), []
            for index in range(self._count("get_num_entries")):
                copied = self._call("entry", index, room, len(room))
                check(copied.status)
                fields += list_fields([copied], taken(room, copied.namelen + copied.valuelen))
            return fields

    def _call(self, name: str, *words: Any) -> Any:
        """Calls a function of this end."""
        with self._lock:
            if self.closed:
                raise EndClosed()
            return getattr(lib.calls, f"{self.kind}_{name}")(ctypes.byref(self._end), *words)

    def _count(self, name: str) -> int:
        count: int = self._call(name)
        return count

    def _take(self, length: str, write: str) -> bytes:
        """Returns the bytes that are to be sent on this side's stream of instructions."""
        with self._lock:
            room = make_room(self._count(length))
            return taken(room, self._call(write, room, len(room)))


def in_range(number: int, limit: int, range_text: str) -> int:
    """Returns a number below a limit. ctypes would cut any other."""
    if not 0 <= number < limit:
        raise InvalidArgument(range_text)
    return number


def stream_number(stream_id: int) -> int:
    """Returns the number of a stream."""
    return in_range(stream_id, 1 << 62, "the stream must be below 2^62")
