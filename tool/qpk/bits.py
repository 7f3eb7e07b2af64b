"""What a packet of a capture brought, in words and in bits: qpk explain CAPTURE '#N'. qpk-capture reads it."""

import json
import subprocess
import tempfile
from typing import Dict, Iterator, List, NamedTuple, Tuple

from qpk.lines import ENDS, MARKS, PEER, Piece, pieces_of_lines
from qpk.streams import Connection, SourceError, to_text

KINDS = {"e": "encoder", "d": "decoder"}


class Block(NamedTuple):
    """What qpk show says of a thing: its object, and its lines of text."""

    said: dict
    lines: List[bytes]


def ask(program: str, words: List[str], connection: Connection) -> bytes:
    """Returns what qpk prints of a connection."""
    with tempfile.TemporaryFile() as recording:
        connection.write(recording)
        recording.seek(0)
        ran = subprocess.run([program, *words, "-"], stdin=recording, capture_output=True, check=False)
    if ran.stderr:
        raise SourceError(to_text(ran.stderr).strip())
    return ran.stdout


def blocks_of(program: str, rest: List[str], connection: Connection) -> List[Block]:
    """Returns what qpk show says of a connection, a block for each object."""
    blocks: List[Block] = []
    objects = ask(program, ["show", "--json", *rest], connection).splitlines()
    texts = ask(program, ["show", *rest], connection).splitlines(True)
    at = 0
    for it in objects:
        end = at + 1
        while end < len(texts) and texts[end].startswith(b" "):
            end += 1
        blocks.append(Block(json.loads(it), texts[at:end]))
        at = end
    return blocks


class Streams:
    """The bytes of the streams of instructions, and where their instructions begin."""

    def __init__(self, blocks: List[Block], pieces: List[Piece]) -> None:
        self.bytes: Dict[Tuple[str, str], bytearray] = {}
        self.ends: Dict[int, int] = {}  # by lines: the offset after what they brought
        self.begins: Dict[Tuple[str, str], List[Tuple[int, int]]] = {}  # each with the line that made it whole
        for it in pieces:
            if it.kind in KINDS:
                data = self.bytes.setdefault((it.end, it.kind), bytearray())
                data += it.data
                self.ends[it.line] = len(data)
        for block in blocks:
            for kind, name in KINDS.items():
                if name in block.said and "line" in block.said:
                    key = (block.said.get("from", ""), kind)
                    self.begins.setdefault(key, []).append((block.said[name], block.said["line"]))

    def made_whole(self, it: Piece) -> Tuple[int, bytes]:
        """Returns where the instructions begin that a line made whole, and their bytes."""
        begins = self.begins.get((it.end, it.kind), [])
        own = [offset for offset, line in begins if line == it.line]
        if not own:
            return self.ends[it.line], b""
        later = [offset for offset, line in begins if line > it.line]
        end = min([self.ends[it.line], *later])
        return own[0], bytes(self.bytes[it.end, it.kind][own[0] : end])


def capacities_of(connection: Connection) -> Dict[str, str]:
    """Returns the maximum capacities in SETTINGS, by the ends whose encoders have them."""
    found = {}
    for line in connection.all_lines():
        words = line.split()[1:]
        if len(words) == 4 and words[1] == "s":
            found[ENDS[PEER[words[0]]]] = words[2]
    return found


def explained(program: str, rest: List[str], connection: Connection, packet: int) -> Iterator[bytes]:
    """Yields what a packet of a connection brought: each line of qpk show, and below it the bytes with their bits."""
    wanted = {line for line, number in enumerate(connection.packets, 1) if number == packet}
    if not wanted:
        return
    pieces = list(pieces_of_lines(connection.all_lines()))
    blocks = blocks_of(program, rest, connection)
    streams, capacities = Streams(blocks, pieces), capacities_of(connection)
    of_lines = {it.line: it for it in pieces if it.line in wanted}
    for number in sorted(wanted):
        yield from (line for block in blocks if block.said.get("line") == number for line in block.lines)
        if number not in of_lines:
            continue
        it = of_lines[number]
        limit = ["--max-capacity", capacities[it.end]] if it.end in capacities and it.kind == "b" else []
        at, data = (0, it.data) if it.kind == "b" else streams.made_whole(it)
        kind = [] if it.kind == "b" else [f"--{KINDS[it.kind]}-stream"]
        if data:
            yield heading(it, at).encode()
            words = [program, "explain", *kind, *limit]
            yield subprocess.run(words, input=data.hex().encode(), capture_output=True, check=False).stdout
        else:
            yield f"{MARKS[it.end]} bytes of an instruction that a later packet makes whole: {it.data.hex()}\n".encode()


def heading(it: Piece, at: int) -> str:
    """Returns the line before the bits of a line."""
    if it.kind == "b":
        return f"{MARKS[it.end]} section of stream {it.stream}, its bits:\n"
    return f"{MARKS[it.end]} {KINDS[it.kind]} stream from byte {at} on, its bits:\n"


def nearest(connections: List[Connection], packet: int) -> str:
    """Returns why a packet brought nothing, and which packets near it did."""
    numbers = sorted({it for connection in connections for it in connection.packets if it})
    if not numbers:
        return "its lines have no packets: name a capture of tcpdump, dumpcap or Wireshark"
    near = sorted(sorted(numbers, key=lambda it: abs(it - packet))[:3])
    return f"packet #{packet} made nothing of QPACK whole: near it are {', '.join(f'#{it}' for it in near)}"
