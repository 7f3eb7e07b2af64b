"""Which connections of which file are asked for, and what is missing of them. qpk-capture and qpk-report read it."""

from typing import BinaryIO, List, NamedTuple, Optional

from qpk.main import complain, open_file, open_input
from qpk.source import Wanted, read_file
from qpk.streams import Connection, SourceError
from qpk.tshark import connect, read_pieces


class Asked(NamedTuple):
    """What the words of a command name."""

    file: Optional[str]  # a minus is standard input
    pdml: Optional[str]  # what tshark printed, in the place of a file
    connection: Optional[int]
    wanted: Wanted


def read_source(asked: Asked, data: Optional[BinaryIO] = None) -> List[Connection]:
    """Returns all connections of what the words name, of its data if they were read."""
    if data is not None:
        return read_file(data, asked.wanted)
    if asked.pdml is not None:
        with open_input() if asked.pdml == "-" else open_file(asked.pdml) as pdml:
            pieces = read_pieces(pdml)
        return [connect(it, pieces[it]) for it in sorted(pieces)]
    with open_input() if asked.file in (None, "-") else open_file(asked.file) as file:
        return read_file(file, asked.wanted)


def read_connections(asked: Asked, data: Optional[BinaryIO] = None) -> List[Connection]:
    """Returns the connections that are asked for."""
    connections = read_source(asked, data)
    if not connections:
        raise SourceError("it has no stream that can be read: are the secrets of its connections in the key log?")
    found = chosen(asked.connection, connections)
    if not found:
        numbers = ", ".join(str(it.number) for it in connections)
        raise SourceError(f"it has no connection {asked.connection}, but {numbers}")
    return found


def chosen(number: Optional[int], connections: List[Connection]) -> List[Connection]:
    """Returns the connection of a number, of several, or all where there is no number."""
    return [it for it in connections if number in (None, it.number)]


def tell_missing(connection: Connection, has_seen: bool = True) -> None:
    """Says what is missing of a connection, and what was seen of it if something lacks."""
    seen = connection.seen
    if has_seen and seen and seen.lacks():
        complain(f"qpk-capture: connection {connection.number}: {seen.line()}")
    for it in connection.missing:
        complain(f"qpk-capture: connection {connection.number}: {it}")
