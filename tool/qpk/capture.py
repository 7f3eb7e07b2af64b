"""Shows or checks the QPACK of the HTTP/3 connections in a capture, a trace or a log, by qpk.

    qpk-capture show CAPTURE --keys KEYLOG [--connection N] [--stream N] [words of qpk show]
    qpk-capture check CAPTURE --keys KEYLOG [--connection N] [words of qpk check]
    qpk-capture lines CAPTURE --keys KEYLOG [--connection N]      # prints the lines that qpk show reads
    qpk-capture explain CAPTURE --keys KEYLOG '#12'               # what packet 12 brought, with its bits
    qpk-capture show --follow FILE                                # what is new of a recording that grows
    qpk-capture strip FILE                                        # the recording with other values
    qpk-capture tune FILE                                         # which settings to choose
    dumpcap -w - | qpk-capture show - --keys KEYLOG               # a minus is standard input
    qpk-capture show NETLOG.json --keys KEYLOG                    # Chrome's net log, with raw bytes
    qpk-capture show TRACE.qlog                                   # a trace in qlog that has bytes
    qpk-capture show FILE --qlog                                  # writes a trace in qlog
    tshark -r CAPTURE -o tls.keylog_file:KEYLOG -Y quic -T pdml | qpk-capture show --pdml -

A capture is pcap or pcapng, and may be compressed by gzip, xz or zstd. KEYLOG has the secrets of the connections, as
programs write them where SSLKEYLOGFILE names a file. A capture that contains its secrets needs no KEYLOG. libcrypto decrypts
it; without that, or with --by tshark, tshark does. --pdml FILE reads what tshark printed. The limits of each encoder are
those of the SETTINGS in the file. The variables LIBCRYPTO, TSHARK and QPK name the library and the programs.

After the word -- there are names of files alone. The status is 1 where the file can't be read. Of check it is 4 where each
finding may be none with what the file lacks. Else it is the greatest of qpk's for a connection. It needs Python 3.8.
"""

import argparse
import json
import re
import secrets
import subprocess
import sys
import tempfile
from contextlib import contextmanager
from io import BytesIO
from shutil import copyfileobj
from typing import Iterable, Iterator, List

import qpk.strip
import qpk.trace
import qpk.tune
from qpk.asked import Asked, chosen, read_connections, tell_missing
from qpk.bits import explained, nearest
from qpk.findings import FOUND, PERHAPS, Marker, Places, is_object, read_finding
from qpk.follow import Follower, follow
from qpk.lines import pieces_of_lines
from qpk.lists import OnlyLists, written_lists
from qpk.main import complain, open_file, run
from qpk.report.recording import pieces_of_records
from qpk.source import Wanted, read_file
from qpk.streams import Connection, SourceError, to_bytes, to_text
from qpk.terminal import written
from qpk.words import read_words

REFUSED_PART = 2  # the status of qpk where its answer is there, and something in it is refused


# ---- What is printed


def is_of_stream(line: bytes, number: int) -> bool:
    """Whether a line that qpk printed is about a stream; of lines that are indented, the one before them is."""
    text = to_text(line)
    if is_object(line):
        return qpk.trace.is_about(json.loads(text), number)
    about = rf"(^|[<>] )(section {number}: |stream {number}: |decoder \d+: \w+ stream {number}\b)"
    return re.search(about, text) is not None


def of_stream(lines: Iterable[bytes], number: int) -> Iterator[bytes]:
    """Yields the lines about a stream."""
    is_kept = False
    for line in lines:
        is_kept = is_kept if line.startswith(b" ") else is_of_stream(line, number)
        if is_kept:
            yield line


@contextmanager
def qpk_on(words: argparse.Namespace, rest: List[str], connection: Connection) -> Iterator["subprocess.Popen[bytes]"]:
    """Runs qpk on a connection. What it prints is read as it comes, and what it says is passed on."""
    with tempfile.TemporaryFile() as recording, tempfile.TemporaryFile() as complaints:
        connection.write(recording)
        recording.seek(0)
        try:
            program = [words.qpk, words.command, *rest, "-"]
            ran = subprocess.Popen(program, stdin=recording, stdout=subprocess.PIPE, stderr=complaints)
        except FileNotFoundError:
            raise SourceError(f"{words.qpk} is not in PATH: install it, or name it in the variable QPK") from None
        with ran:
            try:
                yield ran
            except BaseException:
                ran.kill()  # without its reader it would report that its output can't be written
                raise
        complaints.seek(0)
        for line in to_text(complaints.read()).splitlines():
            complain(line)


def show_text(words: argparse.Namespace, rest: List[str], connection: Connection) -> int:
    """Prints what qpk says of a connection, after a line with its ends, and returns its status."""
    marker = None
    with qpk_on(words, [*rest, *(["--json"] if words.terminal else [])], connection) as ran:
        assert ran.stdout
        if connection.about and "--json" in rest:
            say(json.dumps({"connection": connection.number, **connection.about}, separators=(",", ":")) + "\n")
        elif connection.about:
            say(f"{connection.name()}\n")
        if words.command == "check":
            marker = Marker(connection.seen, bool(connection.missing))
            say(connection.seen.text("--json" in rest) if connection.seen else "")
            lines = Places(connection).lines(marker.lines(ran.stdout))
            sys.stdout.buffer.writelines(lines_for_terminal(words, rest, connection, lines) if words.terminal else lines)
        elif words.stream is None:
            copyfileobj(ran.stdout, sys.stdout.buffer)
        else:
            sys.stdout.buffer.writelines(of_stream(ran.stdout, words.stream))
    return marker.status(ran.returncode) if marker else ran.returncode


def lines_for_terminal(
    words: argparse.Namespace, rest: List[str], connection: Connection, lines: Iterable[bytes]
) -> Iterator[bytes]:
    """Yields what qpk check says of a connection, as objects, in the short lines of a terminal."""
    objects = [json.loads(it) for it in lines]
    findings = [it for it in map(read_finding, objects) if it]
    for it in objects:
        if not findings:
            counts = ", ".join(f"{name.replace('_', ' ')} {count}" for name, count in it.items() if name != "findings")
            yield to_bytes(f"nothing found: {counts}\n")
    pieces = pieces_of_records(BytesIO(connection.data or b"")) if "--qif" in rest else pieces_of_lines(connection.all_lines())
    for line in written(findings, pieces, words.all):
        yield to_bytes(f"{line}\n")


def show_trace(words: argparse.Namespace, rest: List[str], connections: List[Connection]) -> int:
    """Prints what qpk says of connections as a trace, or nothing if it refuses one, and returns the greatest status."""
    rest = [*(it for it in rest if it not in ("--json", "--table")), "--json"]
    ran = []
    for connection in connections:
        with qpk_on(words, rest, connection) as running:
            assert running.stdout
            text = to_text(running.stdout.read())
        if running.returncode not in (0, REFUSED_PART):
            return running.returncode
        ran.append((connection, text, running.returncode))
    for record in qpk.trace.write_trace([it[:2] for it in ran], words.stream):
        say(record)
    return max(status for *_, status in ran)


def say(text: str) -> None:
    """Prints a text, and nothing after it."""
    sys.stdout.buffer.write(to_bytes(text))


# ---- What is read


def show_lists(words: argparse.Namespace, rest: List[str], lists: OnlyLists) -> int:
    """Prints header lists that have no bytes, and returns the status."""
    if words.command != "show" or words.qlog:
        raise lists
    complain(f"qpk-capture: {lists}")
    kept = [it for it in lists.lists if words.stream in (None, it.stream)]
    sys.stdout.buffer.writelines(written_lists(kept, "--json" in rest))
    return 0


def explain(words: argparse.Namespace, rest: List[str], connections: List[Connection]) -> int:
    """Prints what a packet brought to each connection, and returns the status."""
    has_any = False
    for connection in connections:
        lines = list(explained(words.qpk, rest, connection, words.packet))
        if lines:
            has_any = True
            say(f"{connection.name()}\n")
            sys.stdout.buffer.writelines(lines)
    if not has_any:
        raise SourceError(nearest(connections, words.packet))
    return 0


def strip(words: argparse.Namespace, rest: List[str], connections: List[Connection]) -> int:
    """Writes the recording of the one connection with other values, and returns the status."""
    if len(connections) > 1:
        numbers = ", ".join(str(it.number) for it in connections)
        raise SourceError(f"it has the connections {numbers}: name one by --connection")
    key = words.seed.encode("utf-8", "surrogateescape") if words.seed is not None else secrets.token_bytes(32)
    sys.stdout.buffer.write(qpk.strip.strip(words.qpk, rest, connections[0], key))
    complain("qpk-capture: values became others; names, sizes, stream numbers and times are as they were (qpk help strip)")
    return 0


def tune(words: argparse.Namespace, rest: List[str]) -> int:
    """Prints what the lists take at several capacities, and which settings to choose. Returns the status."""
    own = {"--keys": words.keys, "--by": words.by, "--pdml": words.pdml, "--connection": words.connection}
    given = [f"{name}={value}" for name, value in own.items() if value is not None]
    named = [] if words.capture is None and words.pdml is not None else ["--", words.capture or "-"]
    for line in qpk.tune.lines([*given, *rest, *named], words.qpk):
        say(f"{line}\n")
    return 0


def show_as_it_grows(words: argparse.Namespace, rest: List[str]) -> int:
    """Prints what is new of a file until an interrupt, and returns the status."""
    follower = Follower(
        words.qpk, rest, lambda data: chosen(words.connection, read_file(BytesIO(data), Wanted(words.keys, words.by)))
    )
    try:
        with open_file(words.capture) as file:
            follow(file, follower, sys.stdout.buffer.write, sys.stdout.buffer.flush)
    except KeyboardInterrupt:
        pass
    return 0


def greatest(statuses: List[int]) -> int:
    """Returns the status of all connections: that something is found comes before that something may be."""
    return FOUND if set(statuses) <= {0, FOUND, PERHAPS} and FOUND in statuses else max(statuses)


def answer() -> int:
    """Does what the words ask for, and returns the status."""
    words, rest = read_words(__doc__ or "")
    if words.follow:
        return show_as_it_grows(words, rest)
    if words.command == "tune":
        return tune(words, rest)
    try:
        wanted = Wanted(words.keys, words.by, "--qif" in rest)
        connections = read_connections(Asked(words.capture, words.pdml, words.connection, wanted))
    except OnlyLists as lists:
        return show_lists(words, rest, lists)
    for connection in connections:
        tell_missing(connection, words.command != "check")  # which prints what was seen
    if words.command == "lines":
        for connection in connections:
            say(f"# {connection.name()}\n")
            connection.write(sys.stdout.buffer)
        return 0
    if words.qlog:
        return show_trace(words, rest, connections)
    if words.command == "explain":
        return explain(words, rest, connections)
    if words.command == "strip":
        return strip(words, rest, connections)
    return greatest([show_text(words, rest, it) for it in connections])


def main() -> int:
    """Answers, and returns the status."""
    return run("qpk-capture", answer)
