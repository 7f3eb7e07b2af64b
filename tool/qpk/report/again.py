"""qpk stats --try: the lists of a connection, or of a log without bytes, encoded at other capacities by the library."""

import importlib
import os
import sys
from collections import defaultdict
from typing import Any, Dict, Iterable, Iterator, List, Optional, Tuple

from qpk.lines import ENDS
from qpk.lists import HeaderList
from qpk.places import DIST, TOP
from qpk.streams import to_bytes

from . import ReportError
from .connection import Event
from .lines import Object

USUAL_BLOCKED = 100
MOST_SECTION = (1 << 64) - 1  # a decoder's limit that no section reaches


def load_library() -> Any:
    """Returns the package h3_qpack for Python: one that is installed, or else that of a clone, over its dist/build."""
    clone = TOP / "bindings" / "python"
    built = DIST / "build" / "libh3_qpack.so.0"
    if built.is_file():
        os.environ.setdefault("H3_QPACK_LIBRARY", str(built))
    sys.path.append(str(clone))
    try:
        return importlib.import_module("h3_qpack")
    except (ImportError, OSError) as error:
        hint = f"run `make -C {DIST}`" if clone.is_dir() else "install the library, and its package for Python"
        raise ReportError(f"--try encodes by the library, which is not there: {hint} ({error})") from None


class Lists:
    """The lists of a connection as the library takes them, by the end of each direction."""

    def __init__(self, library: Any) -> None:
        self.library = library
        self.directions: Dict[str, List[List[Any]]] = defaultdict(list)

    def take(self, event: Event) -> None:
        """Keeps a list."""
        if event.is_list:
            self.directions[event.of].append(fields_with_marks(event, self.library))


def lists_of_log(lists: Iterable[HeaderList], library: Any) -> Dict[str, Dict[str, List[List[Any]]]]:
    """Returns header lists that a log has without bytes, as the library takes them, by connection and end."""
    found: Dict[str, Dict[str, List[List[Any]]]] = {}
    for it in lists:
        fields = [library.Field(to_bytes(name), to_bytes(value), False) for name, value in it.fields]
        found.setdefault(it.connection, {}).setdefault(ENDS[it.mark], []).append(fields)
    return found


def try_capacities(
    lists: List[List[Any]], settings: Optional[Object], capacities: List[int], max_blocked: Optional[int], library: Any
) -> Iterator[Dict[str, int]]:
    """Yields for each capacity what the lists of a direction take: the bytes of sections and of the encoder stream.

    As in qpk show, the limit of blocked streams is that of SETTINGS, else the one that is given, else 100.
    """
    usual = USUAL_BLOCKED if max_blocked is None else max_blocked
    blocked = settings["max_blocked"] if settings else usual
    for capacity in capacities:
        sections, instructions = encode_again(lists, capacity, blocked, library)
        total = sections + instructions
        yield {"capacity": capacity, "section_bytes": sections, "encoder_stream_bytes": instructions, "bytes": total}


def fields_with_marks(event: Event, library: Any) -> List[Any]:
    """Returns the fields of a list as the library takes them. Those that are never indexed stay so."""
    return [library.Field(*it.field, bool(it.form.said.get("never_indexed"))) for it in event.lines.shapes]


def encode_again(lists: List[List[Any]], capacity: int, blocked: int, library: Any) -> Tuple[int, int]:
    """Encodes lists, each on a stream of its own and acknowledged before the next, and decodes each again.

    Returns the bytes of the sections, and of the encoder stream.
    """
    sections = instructions = 0
    limits = {"max_capacity": capacity, "max_blocked": blocked}
    try:
        with library.Encoder(**limits, capacity=capacity) as encoder:
            with library.Decoder(**limits, max_section_size=MOST_SECTION) as decoder:
                for stream, fields in enumerate(lists):
                    section = encoder.encode(stream, fields).section
                    written = encoder.take_encoder_stream()
                    decoder.receive(written)
                    if decoder.decode(stream, section) != fields:
                        raise ReportError(f"list {stream + 1}, encoded at capacity {capacity}, decodes to another list")
                    encoder.receive(decoder.take_decoder_stream())
                    sections, instructions = sections + len(section), instructions + len(written)
    except library.QpackError as error:
        raise ReportError(f"the library can't encode the lists at capacity {capacity}: {error}") from None
    return sections, instructions
