#!/usr/bin/env python3
"""Runs two builds of qpk on the same inputs, and reports each case in which they differ.

    tests/qpk_alike.py [--emulator 'qemu-aarch64 -L ROOT'] [--only KIND]... PROVED OTHER

A case has words, an input and what the system does with it: descriptors that are closed or full, a reader that is gone,
little memory. Compared are the output, what is said on standard error, and the status. Each run has at most 1 GB of
memory and 20 seconds of CPU time. The emulator runs OTHER, where that is for another processor, and the cases of little
memory are left out then. Takes half a minute. Ends in a line of how many cases there were, and with status 1 if the two
differ in one.
"""

import argparse
import collections
import os
import random
import resource
import shlex
import subprocess
import sys
import tempfile
from dataclasses import dataclass
from pathlib import Path
from typing import Iterator, List, Optional, Tuple, Union

TOP = Path(__file__).resolve().parent.parent
DATA = TOP / "crates" / "qpack_tests" / "data"
MEGABYTE = 1 << 20
MOST_MEMORY = 1024
MOST_SECONDS = 20

Word = Union[str, bytes]
Outcome = Tuple[object, bytes, bytes]


@dataclass(frozen=True)
class System:
    """What the system does with a run: how each descriptor is opened, and the megabytes of memory that there are."""

    stdin: str = "file"
    stdout: str = "file"
    stderr: str = "file"
    memory: Optional[int] = None

    def __str__(self) -> str:
        named = {"stdin": self.stdin, "stdout": self.stdout, "stderr": self.stderr}
        parts = [f"{name} {how}" for name, how in named.items() if how != "file"]
        parts += [f"{self.memory} MB"] if self.memory else []
        return ", ".join(parts) or "plain"


PLAIN = System()


@dataclass(frozen=True)
class Case:
    """One run of both programs. The kind is what the cases are counted by."""

    kind: str
    words: Tuple[Word, ...]
    data: bytes = b""
    system: System = PLAIN

    def __str__(self) -> str:
        words = " ".join(repr(it[:30]) for it in self.words[:6])
        return f"{self.kind} ({self.system}), words {words}, {len(self.data)} bytes of input"


# ---- The cases


def read_lists() -> List[bytes]:
    """Returns the field lists of the corpus."""
    parts = (DATA / "corpus.qif").read_bytes().split(b"\n\n")
    return [it.strip(b"\n") + b"\n" for it in parts if it.strip()]


def read_scripts() -> List[Tuple[Tuple[str, ...], bytes]]:
    """Returns the words and the input of each case that was foretold."""
    scripts = []
    for part in (DATA / "foretold.txt").read_text().split("\n\n"):
        lines = part.strip("\n").split("\n")
        if lines[0].startswith("= "):
            text = "".join(f"{it}\n" for it in lines[1 : lines.index("--")])
            scripts.append((tuple(lines[0][2:].split(" ")), text.encode()))
    return scripts


def break_text(text: bytes, numbers: random.Random) -> bytes:
    """Returns a text with some bytes replaced, removed and inserted."""
    broken = bytearray(text)
    for _ in range(numbers.randint(1, 4)):
        at = numbers.randrange(len(broken))
        some = bytes(numbers.randrange(256) for _ in range(numbers.randint(1, 5)))
        edit = numbers.choice(["replace", "remove", "insert"])
        if edit == "replace":
            broken[at] = some[0]
        elif edit == "remove" and len(broken) > 10:
            del broken[at : at + len(some)]
        else:
            broken[at:at] = some
    return bytes(broken)


def script_cases(numbers: random.Random) -> Iterator[Case]:
    """Sessions and inspections that were foretold, as they are and broken."""
    for words, text in read_scripts():
        yield Case("script", words, text)
        for _ in range(2):
            yield Case("broken script", words, break_text(text, numbers))


def section_cases(numbers: random.Random) -> Iterator[Case]:
    """Field lists, and their sections at the limit, above it and below it."""
    for text in read_lists():
        yield Case("encode", ("encode",), text)
        yield Case("broken encode", ("encode",), break_text(text, numbers))
    for line in (DATA / "stateless_h3.tsv").read_text().splitlines():
        _, size, digits = line.split("\t")
        section = digits.encode()
        yield Case("decode", ("decode", size), section)
        yield Case("decode --json", ("decode", "--json", "99999"), section + b"\n")
        yield Case("decode --hex", ("decode", "--hex", size), section)
        yield Case("decode past the limit", ("decode", str(int(size) - 1)), section)
        yield Case("decode cut", ("decode", size), section[: numbers.randrange(len(section))])
        yield Case("broken decode", ("decode", size), break_text(section, numbers))


def recording_cases(proved: str) -> Iterator[Case]:
    """Header lists to recordings of the offline interop and back. The proved program writes the recordings."""
    lists = b"\n".join(read_lists())
    for capacity, blocked, acknowledged in (
        (0, 0, 0),
        (256, 8, 1),
        (4096, 100, 1),
        (4096, 16, 0),
        (4096, 0, 1),
        (65536, 16, 1),
        (2**62, 5, 0),
    ):
        settings = (str(capacity), str(blocked))
        encode = ("encode", "--qif", *settings, str(acknowledged))
        yield Case("encode --qif", encode, lists)
        recording = subprocess.run([proved, *encode], input=lists, capture_output=True, check=False).stdout
        half = recording[: len(recording) // 2 + 1]
        yield Case("decode --qif", ("decode", "--qif", *settings), recording)
        yield Case("decode --qif cut", ("decode", "--qif", *settings), half)
        yield Case("show --qif", ("show", "--qif", *limits(*settings)), recording)
        yield Case("check --qif", ("check", "--qif", *limits(*settings)), recording)
        table = ("show", "--qif", "--json", "--table", *limits(str(min(capacity, 4096)), str(blocked)))
        yield Case("show --qif --json --table", table, recording[:4000])


def limits(capacity: str, blocked: str) -> Tuple[str, ...]:
    """Returns the words that give the limits of an encoder."""
    return ("--max-capacity", capacity, "--max-blocked", blocked)


def connection_cases(numbers: random.Random) -> Iterator[Case]:
    """Connections of nghttp3, in words, judged, and as they are inspected; and their bytes, explained."""
    for file in sorted(DATA.glob("nghttp3_*.txt")):
        text = file.read_bytes()
        capacity, blocked = file.stem.split("_")[1:3]
        for options in ((), ("--json",), ("--table",), ("--json", "--table")):
            yield Case(" ".join(["show", *options]), ("show", *options, *limits(capacity, blocked)), text)
        yield Case("check", ("check", *limits(capacity, blocked)), text)
        yield Case("inspect", ("inspect", capacity), without_streams(text))
        for _ in range(3):
            yield Case("show cut", ("show", *limits(capacity, blocked)), text[: numbers.randrange(len(text))])
            yield Case("broken show", ("show", *limits(capacity, blocked)), break_text(text, numbers))
            yield Case("broken check", ("check", "--json", *limits(capacity, blocked)), break_text(text, numbers))
        yield from explain_cases(text, numbers)


def explain_cases(text: bytes, numbers: random.Random) -> Iterator[Case]:
    """Some lines of a connection, each with its bytes explained, whole and cut."""
    kinds = {b"b": ("explain",), b"e": ("explain", "--encoder-stream"), b"d": ("explain", "--decoder-stream")}
    for line in numbers.sample(text.splitlines(), 10):
        parts = line.split(b"\t")
        words = kinds[parts[0]]
        yield Case("explain", words, parts[-1])
        yield Case("explain cut", (*words, parts[-1][: numbers.randrange(len(parts[-1])) // 2 * 2]))


def without_streams(text: bytes) -> bytes:
    """Returns the lines of a connection as `inspect` reads them: its sections have no stream."""
    parts = [it.split(b"\t") for it in text.splitlines()]
    return b"".join(it[0] + b"\t" + it[-1] + b"\n" for it in parts)


def word_cases() -> Iterator[Case]:
    """Words that are none of a command's, numbers at their bounds, and words that are long or many."""
    lengths = (255, 256, 257, 4095, 4096, 4097, 100_000)
    for text in (
        *("", "--help", "--help x", "--version", "-h", "help", "prove", "ENCODE", "encode x", "encode -- x", "decode"),
        *("decode 12x", "decode -1", "decode +5", "decode 007", f"decode {2**64 - 1}", f"decode {2**64}"),
        *("decode --hex", "decode --hex --json 1", "run", "run 1", "run a b", "run 1 2 3", "inspect", "inspect x"),
        *(f"inspect {2**63}", "show", "show 1", "show --json --max-blocked", "show --bad", "show --json --json -"),
        *(
            "check",
            "check --table",
            "check --max-capacity x",
            "explain",
            "explain 0",
            "explain 00 --bad",
            "help show",
            "help x",
        ),
        *("encode --qif", "encode --qif 1 2 3", "encode --qif 1 2 2", "decode --qif 1", "decode --qif 1 x"),
    ):
        yield from word_case(*text.split())
    yield from word_case("")
    yield from word_case("encode", "")
    yield from word_case("run", "", "")
    yield from word_case("decode", " 7")
    yield from word_case("decode", "a\tb")
    yield from word_case("a\nb")
    yield from word_case("decode", "ü")
    yield from word_case("decode", b"\xff")
    yield from word_case(b"\xff\xfe")
    for length in lengths:
        yield from word_case("decode", "1" * length)
        yield from word_case("show", "x" * length)
    yield from word_case("x" * 131_071)
    yield from word_case("decode", *["y"] * 3000)


def word_case(*words: Word) -> Iterator[Case]:
    """The same words over an input and over none."""
    yield Case("words", words, b"0000d1\n")
    yield Case("words, no input", words, b"", System(stdin="null"))


def system_cases() -> Iterator[Case]:
    """Each command, where a descriptor can't be read or written, or is read and written in another way."""
    systems = [System(stdin=it) for it in ("closed", "null", "folder", "write-only", "offset", "nonblocking", "slow")]
    systems += [System(stdout=it) for it in ("closed", "full", "broken", "read-only")]
    systems += [System(stderr=it) for it in ("closed", "full")]
    systems += [System(stdout="full", stderr="full"), System("closed", "closed", "closed")]
    run_words, run_text = read_scripts()[0]
    for words, text in (
        (("encode",), b":method\tGET\n"),
        (("decode", "42"), b"0000d1\n"),
        (("decode", "41"), b"0000d1\n"),
        (("decode", "zz"), b""),
        (("decode", "12x"), b""),
        (run_words, run_text),
        (("inspect", "4096"), b"b\t0000d1\n"),
        (("show",), b"b\t4\t0000d1\n"),
        (("encode", "--qif", "0", "0", "0"), read_lists()[0]),
        (("--help",), b""),
    ):
        for system in systems:
            yield Case("system", words, text, system)


def large_cases() -> Iterator[Case]:
    """Inputs of megabytes, as they are, and where memory or the output ends."""
    lists = b"\n".join(read_lists())
    for words, text in (
        (("encode",), (b"x-" + b"n" * 60 + b"\t" + b"v" * 900 + b"\n") * 20_000),
        (("encode",), b"\0" * 15_000_000),
        (("encode", "--qif", "4096", "100", "1"), (lists + b"\n") * 20),
        (("decode", str(2**64 - 1)), b"0000" + b"d1" * 1_000_000),
        (("decode", "--json", str(2**64 - 1)), b"0000" + b"d1" * 300_000),
        (("decode", "42"), b"0" * 15_000_000),
        (("inspect", "4096"), b"b\t0000d1\n" * 50_000),
        (("run", "4096", "8"), b"encode\t4\tfoo\tbar\ntoencoder\t99\ntodecoder\t99\n" * 8000),
        (("show",), b"b\t4\t0000" + b"d1" * 100_000 + b"\n"),
    ):
        for system in (PLAIN, System(memory=40), System(stdout="full"), System(stdout="broken")):
            yield Case("large", words, text, system)


def all_cases(proved: str) -> Iterator[Case]:
    """Every case, the same in every run."""
    numbers = random.Random(9204)
    yield from script_cases(numbers)
    yield from section_cases(numbers)
    yield from recording_cases(proved)
    yield from connection_cases(numbers)
    yield from word_cases()
    yield from system_cases()
    yield from large_cases()


# ---- A run


class Run:
    """One run of a program: its descriptors, and what it wrote to them."""

    def __init__(self, case: Case, room: Path) -> None:
        self.case = case
        self.output = tempfile.TemporaryFile(dir=room)
        self.faults = tempfile.TemporaryFile(dir=room)
        self.writer: Optional[int] = None
        self.feeder: Optional[int] = None
        self.stdin = self.open_input(room / "input")
        self.stdout = self.open_output(case.system.stdout, self.output.fileno())
        self.stderr = self.open_output(case.system.stderr, self.faults.fileno())

    def open_input(self, path: Path) -> int:
        """Opens the input as the case has it."""
        how = self.case.system.stdin
        if how == "null":
            return os.open("/dev/null", os.O_RDONLY)
        if how == "folder":
            return os.open("/", os.O_RDONLY)
        if how == "write-only":
            return os.open("/dev/null", os.O_WRONLY)
        if how in ("nonblocking", "slow"):
            reader, self.writer = os.pipe()
            os.set_blocking(reader, how == "slow")
            if how == "slow":
                self.feed(reader)
            return reader
        before = b"an end of another input\n" if how == "offset" else b""
        path.write_bytes(before + self.case.data)
        reader = os.open(path, os.O_RDONLY)
        os.lseek(reader, len(before), os.SEEK_SET)
        return reader

    def feed(self, reader: int) -> None:
        """Has another process write the input to the pipe, seven bytes at a time."""
        assert self.writer is not None
        self.feeder = os.fork()
        if self.feeder == 0:
            os.close(reader)
            try:
                for at in range(0, len(self.case.data), 7):
                    os.write(self.writer, self.case.data[at : at + 7])
            except OSError:
                pass
            os._exit(0)
        os.close(self.writer)
        self.writer = None

    @staticmethod
    def open_output(how: str, file: int) -> int:
        """Opens an output as the case has it, over a file that keeps what is written."""
        if how == "full":
            return os.open("/dev/full", os.O_WRONLY)
        if how == "read-only":
            return os.open("/dev/null", os.O_RDONLY)
        if how == "broken":
            reader, writer = os.pipe()
            os.close(reader)
            return writer
        return os.dup(file)

    def prepare(self, limits_memory: bool) -> None:
        """Sets the limits in the new process, and closes what the case has closed."""
        resource.setrlimit(resource.RLIMIT_CPU, (MOST_SECONDS, MOST_SECONDS))
        if limits_memory:
            most = (self.case.system.memory or MOST_MEMORY) * MEGABYTE
            resource.setrlimit(resource.RLIMIT_AS, (most, most))
        for descriptor, how in enumerate((self.case.system.stdin, self.case.system.stdout, self.case.system.stderr)):
            if how == "closed":
                os.close(descriptor)

    def __call__(self, program: str, emulator: List[str]) -> Outcome:
        """Runs the program, by an emulator if there is one, and returns its status, its output and its faults."""
        words = [os.fsencode(it) for it in self.case.words]
        argv = [*map(os.fsencode, emulator), b"-0", b"qpk", os.fsencode(program)] if emulator else [b"qpk"]
        try:
            status: object = subprocess.run(
                argv + words,
                executable=emulator[0] if emulator else program,
                stdin=self.stdin,
                stdout=self.stdout,
                stderr=self.stderr,
                preexec_fn=lambda: self.prepare(limits_memory=not emulator),
                timeout=300,
                check=False,
            ).returncode
        except subprocess.TimeoutExpired:
            status = "no end in five minutes"
        return status, *self.close()

    def close(self) -> Tuple[bytes, bytes]:
        """Closes what was opened, and returns what was written."""
        if self.feeder is not None:
            os.waitpid(self.feeder, 0)
        for descriptor in (self.stdin, self.stdout, self.stderr, self.writer):
            if descriptor is not None:
                os.close(descriptor)
        written = []
        for file in (self.output, self.faults):
            file.seek(0)
            written.append(file.read())
            file.close()
        return written[0], written[1]


def describe(case: Case, proved: Outcome, other: Outcome) -> str:
    """Returns the lines that report a case in which the programs differ."""
    lines = [f"differs: {case}"]
    for name, outcome in (("proved", proved), ("other", other)):
        status, output, faults = outcome
        lines.append(f"  {name}: status {status}, {len(output)} bytes {output[:60]!r}, says {faults[:120]!r}")
    return "\n".join(lines)


def main() -> int:
    parser = argparse.ArgumentParser(description="Runs two builds of qpk on the same inputs.")
    parser.add_argument("--emulator", default="", help="the words that run OTHER, where it is for another processor")
    parser.add_argument("--only", action="append", default=[], metavar="KIND", help="a kind of cases; else all are run")
    parser.add_argument("proved")
    parser.add_argument("other")
    words = parser.parse_args()
    emulator = shlex.split(words.emulator)
    kinds: "collections.Counter[str]" = collections.Counter()
    statuses: "collections.Counter[object]" = collections.Counter()
    differing = 0
    with tempfile.TemporaryDirectory(prefix="qpk-alike-") as place:
        for case in all_cases(words.proved):
            if (words.only and case.kind not in words.only) or (emulator and case.system.memory):
                continue
            proved = Run(case, Path(place))(words.proved, [])
            other = Run(case, Path(place))(words.other, emulator)
            kinds[case.kind] += 1
            statuses[proved[0]] += 1
            if proved != other:
                differing += 1
                print(describe(case, proved, other), flush=True)
    print(", ".join(f"{kind} {count}" for kind, count in kinds.items()))
    print(", ".join(f"{count} end with status {status}" for status, count in statuses.items()))
    print(f"qpk_alike: {sum(kinds.values())} cases, {differing} differ")
    if not statuses[0]:
        print(f"qpk_alike: {words.proved} answers none of them")
    return 1 if differing or not statuses[0] else 0


if __name__ == "__main__":
    sys.exit(main())
