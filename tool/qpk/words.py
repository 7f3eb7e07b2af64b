"""The words of qpk-capture. qpk-capture reads it."""

import argparse
import re
import sys
from typing import Dict, List, NoReturn, Optional, Tuple

from qpk.main import complain, split_words
from qpk.places import find_program
from qpk.source import LIBCRYPTO, TSHARK

COMMANDS = ("show", "check", "lines", "explain", "strip", "tune")
# The words that a command takes and does not pass on to qpk. The others pass theirs on.
REST: Dict[str, List[str]] = {"strip": [], "tune": ["--qif"], "explain": []}
PACKET = re.compile(r"#([1-9][0-9]{0,17})")
# The help on the commands that are those of this script alone.
HELP = {
    "strip": """\
usage: qpk strip [--seed TEXT] [--max-capacity N] [--max-blocked N] FILE
       qpk strip CAPTURE --keys KEYLOG [--connection N]

Writes a recording with other values, to send with a report of a fault. No byte moves: qpk check says the same of both.
  qpk strip capture.pcapng --keys keys.log >recording.txt

These become others: the values of lines and of insertions, names that are no token, and bytes that can't be read.
A value becomes one of the same length, also Huffman-coded. Equal values become equal. Comments are left out.
These stay: names, fields of the static table, sizes, numbers of streams, times, SETTINGS and the order of all.
The key of each run is another, and is not kept.

--seed TEXT        make the key of this text, for tests: anyone who knows it can try values""",
    "tune": """\
usage: qpk tune [--max-capacity N] [--max-blocked N] [--qif] FILE
       qpk tune CAPTURE --keys KEYLOG [--connection N]

Encodes the lists of a recording again, with tables of 0 to 65536 bytes, and says which settings to choose.
  qpk tune capture.pcapng --keys keys.log

Each list is acknowledged before the next, as by qpk stats --try. It needs the library, as that does.""",
}
OPTIONS = """\

--keys KEYLOG      the secrets of a capture's connections; a capture that contains them needs none
--connection N     only this connection, from 0
--by tshark        have tshark decrypt a capture, and not libcrypto
--max-capacity N   the maximum table capacity in bytes, where no line s has it; else 4096
--max-blocked N    how many streams may be blocked, where no line s has it; else 100"""


class Parser(argparse.ArgumentParser):
    """A parser that refuses words with the status 1."""

    def error(self, message: str) -> NoReturn:
        self.print_usage(sys.stderr)
        complain(f"{self.prog}: {message}")
        sys.exit(1)


def parser_of(about: str) -> Parser:
    """Returns the parser of the words, with what is said about the script."""
    style = {"formatter_class": argparse.RawTextHelpFormatter, "allow_abbrev": False}
    parser = Parser(prog="qpk-capture", description=about, **style)
    parser.add_argument("command", choices=COMMANDS)
    parser.add_argument("--keys", metavar="KEYLOG", help="a file with the secrets of the connections")
    parser.add_argument("--by", choices=(LIBCRYPTO, TSHARK), help="what decrypts a capture: libcrypto, if it is there")
    parser.add_argument("--pdml", metavar="FILE", help="what tshark -T pdml printed; a minus is standard input")
    parser.add_argument("--connection", type=int, metavar="N", help="only this connection, from 0")
    parser.add_argument("--stream", type=int, metavar="N", help="only what is about this stream")
    parser.add_argument("--qlog", action="store_true", help="of show: write a trace in qlog, as JSON-SEQ")
    parser.add_argument("--all", action="store_true", help="of check: list what follows from another finding too")
    parser.add_argument("--terminal", action="store_true", help="of check: print a few short lines for each finding")
    parser.add_argument("--follow", action="store_true", help="of show: print what is new of a recording that grows")
    parser.add_argument("--seed", metavar="TEXT", help="of strip: make the key of this text, for tests")
    parser.add_argument("--qpk", default=find_program(), help=argparse.SUPPRESS)
    for name in ("--max-capacity", "--max-blocked"):
        parser.add_argument(name, metavar="N", help="a limit for an encoder whose SETTINGS are not in the file")
    return parser


def read_words(about: str) -> Tuple[argparse.Namespace, List[str]]:
    """Returns what the words ask for, and the words for qpk."""
    parser = parser_of(about)
    own, named = split_words(sys.argv[1:])
    if own[:1] and own[0] in HELP and {"-h", "--help"}.intersection(own):
        print(f"{HELP[own[0]]}\n{OPTIONS}")
        sys.stdout.flush()
        sys.exit(0)
    words, rest = parser.parse_known_args(own)
    files = [it for it in rest if it == "-" or not it.startswith("-")]
    rest = [it for it in rest if it not in files]
    files += named
    take_packet(words, files)
    words.capture = files[0] if files else None
    fault = find_fault(words, rest, files)
    if fault:
        parser.error(fault)
    for name, number in (("--max-capacity", words.max_capacity), ("--max-blocked", words.max_blocked)):
        rest += [] if number is None else [name, number]
    return words, rest


def take_packet(words: argparse.Namespace, files: List[str]) -> None:
    """Takes the number of the packet that explain is asked for from the words that may be files."""
    words.packet = None
    for it in files if words.command == "explain" else ():
        found = PACKET.fullmatch(it)
        if found:
            words.packet = int(found[1])
            files.remove(it)
            return


def find_fault(words: argparse.Namespace, rest: List[str], files: List[str]) -> Optional[str]:
    """Returns what is wrong with the words, or nothing."""
    if len(files) + (words.pdml is not None) > 1:
        return "name one file: a capture, a trace or a recording, or what tshark printed by --pdml"
    if words.capture is None and words.pdml is None and sys.stdin and sys.stdin.isatty():
        return "name a file"
    if words.qlog and (words.command != "show" or "--qif" in rest):
        return "--qlog is a word of show, and reads no recording of the offline interop"
    if (words.all or words.terminal) and words.command != "check":
        return "--all and --terminal are words of check"
    if words.terminal and "--json" in rest:
        return "--terminal prints no JSON: leave it or --json out"
    if words.stream is not None and words.command != "show":
        return "--stream is a word of show"
    if words.seed is not None and words.command != "strip":
        return "--seed is a word of strip"
    if words.follow and (words.command != "show" or words.qlog or words.stream is not None or "--qif" in rest):
        return "--follow is a word of show, without --qlog, --stream and --qif"
    if words.follow and (words.capture in (None, "-") or words.pdml is not None):
        return "--follow reads a file: name a recording, or a log of the example server"
    if words.command == "explain" and words.packet is None:
        return "name a packet by its number, as #12, in quotes for the shell"
    unknown = [it for it in rest if it not in REST.get(words.command, rest)]
    return f"{unknown[0]} is not a word of {words.command}" if unknown else None
