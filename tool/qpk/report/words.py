"""The words of qpk report, open, stats and table, and what each does."""

import argparse
import gc
import json
import locale
import sys
from typing import Any, Callable, Dict, List, NoReturn, Optional, Protocol

from qpk.lists import OnlyLists
from qpk.main import complain, printable, run

from . import ReportError
from .again import Lists, lists_of_log, load_library, try_capacities
from .connection import Connection, Event, Reading
from .opened import open_page, write_page
from .page import PageMaker
from .recording import Recording, Source, read_recordings
from .stats import Count, as_object, print_numbers
from .tab import make_reader
from .table import choose, find_entries, life_as_object, life_as_text, tables_as_objects, tables_as_text

REFUSED_PART = 2  # the status where the answer is there, and something in the recording is refused
FILE = "FILE is a recording, as qpk show reads it (qpk help show), or a capture. A minus is standard input."
OPTIONS = """\
--keys KEYLOG      the secrets of a capture's connections; a capture that contains them needs none
--connection N     only this connection of a capture, from 0
--by tshark        have tshark decrypt a capture, and not libcrypto
--pdml FILE        in the place of a capture: what tshark -T pdml printed
--max-capacity N   the maximum table capacity in bytes, where no line s has it; else 4096
--max-blocked N    how many streams may be blocked, where no line s has it; else 100
--qif              read a recording of the offline interop"""

USAGE = {
    "report": "usage: qpk report FILE [-o PAGE] [--max-capacity N] [--max-blocked N] [--qif]\n"
    "       qpk report CAPTURE --keys KEYLOG [-o PAGE] [--connection N]",
    "open": "usage: qpk open [-o PAGE]\n"
    "       qpk open [-o PAGE] [--max-capacity N] [--max-blocked N] [--qif] FILE\n"
    "       qpk open [-o PAGE] [--connection N] CAPTURE KEYLOG",
    "stats": "usage: qpk stats [--json] [--try CAPACITY,..] [--max-capacity N] [--max-blocked N] [--qif] FILE\n"
    "       qpk stats CAPTURE --keys KEYLOG [--json] [--try CAPACITY,..] [--connection N]",
    "table": "usage: qpk table --at LINE|end [--from END] [--json] [--max-capacity N] [--max-blocked N] [--qif] FILE\n"
    "       qpk table --entry N [--from END] [--json] .. FILE\n"
    "       qpk table CAPTURE --keys KEYLOG [--connection N] ..",
}

HELP = {
    "report": f"""\

Writes a recorded connection as a page of HTML, in one file that needs no network: what is wrong, the requests, their
sections and each instruction with their bytes and meaning, both tables at any moment, and what stats counts.
  qpk report capture.pcapng --keys keys.log -o connection.html

{FILE}

-o PAGE            the file that is written; else standard output
{OPTIONS}
Status 2 says that something in the recording was refused; the page marks it.""",
    "open": f"""\

Opens a page in your browser, on which files can be dropped: recordings, captures, Chrome's net logs, traces, and key logs. The
page reads them itself, and can send nothing. It says what reads them. FILE is on it from the start.
  qpk open capture.pcapng keys.log

{FILE}

-o PAGE            the file that is written, and not opened; a minus is standard output
{OPTIONS}
Status 2 says that something in the recording was refused; the page marks it.""",
    "stats": f"""\

Counts what QPACK did in each direction of a recorded connection: bytes, fields by how they came, insertions and blocked
sections. The manual page says how each is counted.
  printf 'e 3fe11f6294e7838c767f\\nb 4 028010\\n' | qpk stats -

{FILE}

--json             print an object for each direction
--try CAPACITY,..  encode the same lists again by the library, with tables of these capacities, and print their bytes;
                   also those of a log that has no bytes of QPACK, as HAR
{OPTIONS}
Status 2 says that something in the recording was refused.""",
    "table": f"""\

Prints the dynamic tables at a moment of a recorded connection, or the life of an entry.
  printf 'e 3fe11f6294e7838c767f\\nb 4 028010\\n' | qpk table --at end -
  entries 1, 38 of 4096 bytes, evicted 0
    entry 1, 38 bytes, foo: bar

{FILE}

--at LINE          the tables after that line of the recording; after the last, if it is the word end
--entry N          when entry N was inserted, what referenced it, and when it was evicted
--from END         only the table of this end's encoder: client or server
--json             print an object a line
{OPTIONS}
Status 2 says that something in the recording was refused.""",
}


class Parser(argparse.ArgumentParser):
    """A parser that refuses words as qpk does: the usage, the reason, and status 1."""

    def error(self, message: str) -> NoReturn:
        print(self.usage, file=sys.stderr)
        complain(f"qpk: {message}")
        sys.exit(1)


class PrintHelp(argparse.Action):
    """Prints the help of a command."""

    def __call__(self, parser: argparse.ArgumentParser, *_: Any) -> None:
        print(f"{parser.usage}\n{HELP[parser.prog]}")
        sys.stdout.flush()
        sys.exit(0)


def number(word: str) -> int:
    """Returns a number that is 0 or more."""
    if not word.isascii() or not word.isdigit():
        raise argparse.ArgumentTypeError(f'"{word}" is not a whole number')
    return int(word)


def line_or_end(word: str) -> Optional[int]:
    """Returns the number of a line, or None for the end."""
    return None if word == "end" else number(word)


def numbers(word: str) -> List[int]:
    """Returns numbers that are separated by commas."""
    return [number(it) for it in word.split(",")]


def parser_of(command: str) -> Parser:
    """Returns the parser of the words after a command."""
    parser = Parser(prog=command, usage=USAGE[command], add_help=False, allow_abbrev=False)
    parser.add_argument("-h", "--help", nargs=0, action=PrintHelp)
    parser.add_argument("file", nargs="?", metavar="FILE")
    if command == "open":
        parser.add_argument("keylog", nargs="?", metavar="KEYLOG")
    parser.add_argument("--keys", metavar="KEYLOG")
    parser.add_argument("--by", choices=("libcrypto", "tshark"))
    parser.add_argument("--pdml", metavar="FILE")
    for option in ("--connection", "--max-capacity", "--max-blocked"):
        parser.add_argument(option, type=number, metavar="N")
    parser.add_argument("--qif", action="store_true")
    if command in ("report", "open"):
        parser.add_argument("-o", "--output", metavar="PAGE")
    else:
        parser.add_argument("--json", action="store_true")
    if command == "stats":
        parser.add_argument("--try", dest="capacities", type=numbers, default=[], metavar="CAPACITY,..")
    if command == "table":
        about = parser.add_mutually_exclusive_group()
        about.add_argument("--at", type=line_or_end, default=False, metavar="LINE")
        about.add_argument("--entry", type=number, metavar="N")
        parser.add_argument("--from", dest="end", choices=("client", "server"), default="")
    return parser


# ---- What each command does


def print_object(it: Dict[str, Any]) -> None:
    """Prints an object in a line."""
    print(json.dumps(it, separators=(",", ":")))


def print_head(recording: Recording, is_json: bool) -> None:
    """Prints which connection of a capture it is."""
    if recording.number is not None and is_json:
        print_object({"connection": recording.number})
    elif recording.number is not None:
        print(recording.name)


def is_unicode() -> bool:
    """Whether blocks can be printed."""
    encoding = getattr(sys.stdout, "encoding", None) or locale.getpreferredencoding(False)
    return encoding.lower().replace("-", "") == "utf8"


class Observer(Protocol):
    """Takes the events of a connection, one after another."""

    def take(self, event: Event) -> None:
        """Takes an event."""


def read(recording: Recording, *observers: Observer) -> Reading:
    """Has qpk read a recording, and gives each event to the observers."""
    reading = Reading(recording.show(), recording.pieces())
    for event in reading.events():
        for it in observers:
            it.take(event)
    return reading


def run_report(words: argparse.Namespace, recordings: List[Recording]) -> bool:
    """Writes the page, and returns whether something is refused."""
    page = PageMaker()
    while recordings:
        page.add(recordings.pop(0))
    write_page(page, words.output)
    return page.is_refused


def run_open(words: argparse.Namespace, recordings: List[Recording]) -> bool:
    """Writes the page on which files can be dropped, and opens it unless its place is named. Returns whether something is refused."""
    page = PageMaker(make_reader())
    while recordings:
        page.add(recordings.pop(0))
    if words.output is None:
        open_page(page)
    else:
        write_page(page, words.output)
    return page.is_refused


def run_stats(words: argparse.Namespace, recordings: List[Recording]) -> bool:
    """Prints the numbers of each connection, and returns whether something is refused."""
    library = load_library() if words.capacities else None
    is_refused = False
    for recording in recordings:
        count, lists = Count(), Lists(library)
        reading = read(recording, count, *([lists] if library else []))
        counted = list(count.numbers(reading))
        print_head(recording, words.json)
        for end, counting, numbers in counted:
            again = (lists.directions[end], counting.settings, words.capacities, words.max_blocked, library)
            tried = list(try_capacities(*again)) if library else []
            if words.json:
                print_object({**as_object(end, numbers), **({"tried": tried} if tried else {})})
            else:
                print_numbers(end, numbers, is_unicode())
                print_tried(tried, numbers.sections, "encoded again")
        is_refused = is_refused or reading.is_refused
    return is_refused


def print_tried(tried: List[Dict[str, int]], lists: int, done: str) -> None:
    """Prints what lists take at other capacities."""
    for it in tried:
        mean = it["bytes"] / lists if lists else 0.0
        parts = f"{it['section_bytes']} sections + {it['encoder_stream_bytes']} encoder stream"
        print(f"  {done} at capacity {it['capacity']}: {it['bytes']} bytes, {mean:.1f} a list: {parts}")


def try_lists(words: argparse.Namespace, lists: OnlyLists) -> None:
    """Prints what the lists of a log without bytes of QPACK take at the capacities, by connection and end."""
    library = load_library()
    complain(f"qpk {words.command}: {lists.found}")
    found = list(enumerate(lists_of_log(lists.lists, library).items()))
    chosen = [it for it in found if words.connection in (None, it[0])]
    if not chosen:
        raise ReportError(f"it has no connection {words.connection}, but 0 to {len(found) - 1}")
    for place, (name, directions) in chosen:
        if words.json:
            print_object({"connection": place, "log": name})
        else:
            print(f"connection {place}{f', {printable(name)}' if name else ''}")
        for end, fields in directions.items():
            print_lists(words, end, fields, list(try_capacities(fields, None, words.capacities, words.max_blocked, library)))


def print_lists(words: argparse.Namespace, end: str, lists: List[List[Any]], tried: List[Dict[str, int]]) -> None:
    """Prints what the lists of an end have and take, of a log without bytes of QPACK."""
    fields = sum(map(len, lists))
    size = sum(len(it.name) + len(it.value) for fields_of_list in lists for it in fields_of_list)
    if words.json:
        print_object({"from": end, "lists": len(lists), "fields": fields, "list_bytes": size, "tried": tried})
        return
    print(f"{end}'s lists")
    print(f"  {'lists':<24}{len(lists)}; fields in them {fields}")
    print(f"  {'names and values':<24}{size} bytes")
    print_tried(tried, len(lists), "encoded")


def run_table(words: argparse.Namespace, recordings: List[Recording]) -> bool:
    """Prints the tables of each connection at a moment, or the life of an entry. Returns whether something is refused."""
    is_refused = False
    for recording in recordings:
        connection = Connection(recording)
        reading = read(recording, connection)
        connection.finish(reading.ends())
        is_refused = is_refused or reading.is_refused
        directions = choose(connection, words.end)
        print_head(recording, words.json)
        if words.entry is None:
            moment = connection.moment_of(words.at)
            objects, lines = tables_as_objects(directions, moment), tables_as_text(directions, moment)
        else:
            found = find_entries(directions, words.entry)
            objects = (life_as_object(*it) for it in found)
            lines = (line for it in found for line in life_as_text(*it))
        if words.json:
            for it in objects:
                print_object(it)
        else:
            print(*lines, sep="\n")
    return is_refused


COMMANDS: Dict[str, Callable[[argparse.Namespace, List[Recording]], bool]] = {
    "report": run_report,
    "open": run_open,
    "stats": run_stats,
    "table": run_table,
}


def read_words(arguments: List[str]) -> argparse.Namespace:
    """Returns what the words ask for."""
    if not arguments or arguments[0] not in COMMANDS:
        print(*USAGE.values(), sep="\n", file=sys.stdout if arguments[:1] in (["-h"], ["--help"]) else sys.stderr)
        sys.exit(0 if arguments[:1] in (["-h"], ["--help"]) else 1)
    parser = parser_of(arguments[0])
    words, rest = parser.parse_known_args(arguments[1:])
    words.command = arguments[0]
    fault = find_fault(words, rest)
    if fault:
        parser.error(fault)
    return words


def find_fault(words: argparse.Namespace, rest: List[str]) -> Optional[str]:
    """Returns what is wrong with words that were read, and with the rest, or nothing."""
    if rest:
        return f'"{rest[0]}" is ' + ("not an option here" if rest[0].startswith("-") else "one word too many")
    if words.command == "open" and words.keylog is not None:
        if words.keys is not None:
            return "name the key log once"
        words.keys = words.keylog
    if words.command != "open" and words.file is None and words.pdml is None:
        return "FILE is missing"
    if words.file is not None and words.pdml is not None:
        return "name FILE or --pdml, and not both"
    if words.command == "table" and words.at is False and words.entry is None:
        return "--at or --entry is missing"
    return None


def answer(words: argparse.Namespace) -> int:
    """Does what the words ask for, and returns the status."""
    sys.stdout.reconfigure(errors="backslashreplace")  # type: ignore[attr-defined]
    source = Source(
        words.file, words.keys, words.pdml, words.connection, words.max_capacity, words.max_blocked, words.qif, words.by
    )
    try:
        recordings = [] if words.file is None and words.pdml is None else read_recordings(source)
    except OnlyLists as lists:
        if words.command != "stats" or not words.capacities:
            raise
        try_lists(words, lists)
        return 0
    return REFUSED_PART if COMMANDS[words.command](words, recordings) else 0


def main() -> int:
    """Answers the words of the script, and returns the status."""
    gc.disable()  # no object refers to itself over others, and the search for such ones takes a tenth of the time
    command = [it for it in sys.argv[1:2] if it in COMMANDS]
    return run(" ".join(["qpk", *command]), lambda: answer(read_words(sys.argv[1:])))
