"""The connections of a capture as recordings, each decrypted once, with what qpk check says of it."""

from io import BytesIO
from typing import Iterable, Iterator, Optional

from qpk.asked import Asked, read_connections, tell_missing
from qpk.findings import Marker, Places
from qpk.source import Wanted
from qpk.streams import Connection, to_bytes

from .recording import Recording, Source


class CaptureJudge:
    """Marks what qpk check finds on a connection of a capture, and names its packets."""

    def __init__(self, connection: Connection) -> None:
        self.seen, self.places, self.has_gaps = connection.seen, Places(connection), bool(connection.missing)

    def lines(self, printed: Iterable[bytes]) -> Iterator[bytes]:
        """Yields what was seen of the connection, and what qpk check prints, as objects."""
        if self.seen:
            yield to_bytes(self.seen.text(is_json=True))
        yield from self.places.lines(Marker(self.seen, self.has_gaps).lines(printed))


def recordings_of(source: Source, data: Optional[bytes]) -> Iterator[Recording]:
    """Yields the recordings of what a source names, or of its data."""
    asked = Asked(source.file, source.pdml, source.connection, Wanted(source.keys, source.by))
    connections = read_connections(asked, None if data is None else BytesIO(data))
    for connection in connections:
        tell_missing(connection)
    while connections:  # each is dropped once it was taken
        it = connections.pop(0)
        recording = BytesIO()
        it.write(recording)
        yield Recording(it.name(), recording.getvalue(), source.limits(), it.number, CaptureJudge(it), it.packets)
