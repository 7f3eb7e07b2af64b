"""Runs of qpk whose output, faults and status were foretold.

Scripts and inspections were foretold by a program that was written from the definitions alone, and so were header lists and
recordings of the offline interop format, and what is rejected of them. The others were written and read by people.

A file of cases has for each `=` and the words, in several lines if there are several runs, then the lines of the input, a
line `--`, and those of the output. Then there may be a line `status `, the status, and the lines of the faults; else they
are 0 and none. A line `!` says that the input fails at its end. A line `.` is an empty one, a line that ends with `\\` goes
on in the next, and `0x` is followed by bytes. Empty lines are skipped, and lines that begin with `;`.
"""
import re
from dataclasses import dataclass, field

from asked import DATA, Question, shown_bytes

NARROW = "narrow.txt"
FILES = (
    *("foretold.txt", "qif.txt", "shown.txt", "checked.txt", "explained.txt", "coded.txt", "events.txt", "help.txt"),
    *("inspections.txt", "interop.txt", "viewed.txt", "words.txt", NARROW),
)
REFUSED_OUTPUT = b"qpk: refused: output\n"
# The commands that tell it too if nobody reads their output any more.
FIRST_COMMANDS = re.compile(r"encode|decode \d+|run \d+ \d+|inspect \d+")
# A room for the line of an output that can't be written, and more.
WIDE = 100


@dataclass
class Case:
    """Lines of words, each for a run of its own, the input, and the output, the faults and the status of each run."""

    words: list = field(default_factory=list)
    input: bytes = b""
    is_broken: bool = False
    output: bytes = b""
    faults: bytes = b""
    status: int = 0
    part: str = "words"


def bytes_of(line):
    """Returns the bytes of a line of a case."""
    if line.startswith("0x"):
        return bytes.fromhex(line[2:])
    if line.endswith("\\"):
        return line[:-1].encode()
    return b"\n" if line == "." else line.encode() + b"\n"


def read_cases(text):
    """Returns the cases of a text."""
    cases = []
    for line in text.split("\n"):
        if line.startswith("="):
            if not cases or cases[-1].part != "words":
                cases.append(Case())
            cases[-1].words.append(line[1:].strip())
        elif line and not line.startswith(";"):
            add(cases[-1], line)
    return cases


def add(case, line):
    """Adds a line that is not one of words."""
    if case.part in ("words", "input"):
        case.part = "input"
        if line == "--":
            case.part = "output"
        elif line == "!":
            case.is_broken = True
        else:
            case.input += bytes_of(line)
    elif case.part == "output" and line.startswith("status "):
        case.status, case.part = int(line[7:]), "faults"
    elif case.part == "output":
        case.output += bytes_of(line)
    else:
        case.faults += bytes_of(line)


def answer_of(status, faults, output):
    """Returns the answer of a run."""
    return f"{status} {shown_bytes(faults)} {shown_bytes(output)}"


def ask_runs(question, case, words):
    """Asks for the run of words."""
    question.ask(f"runs {words}".strip(), answer_of(case.status, case.faults, case.output))


def ask_narrow_runs(question, case, words):
    """Asks for the runs of an output without room for all, and those of faults with any room. The first have status 1, and
    their faults say why, but for an output that nobody reads any more. The others end as foretold."""
    unread = REFUSED_OUTPUT if FIRST_COMMANDS.fullmatch(words) else b""
    for failure, faults in (("", REFUSED_OUTPUT), ("closes", unread)):
        if failure:
            question.ask(failure, "")
        for room in range(len(case.output)):
            question.ask(f"rooms {room} {WIDE}", "")
            question.ask(f"runs {words}", answer_of(1, faults, case.output[:room]))
    for room in range(len(case.faults) + 1):
        question.ask(f"rooms {len(case.output)} {room}", "")
        question.ask(f"runs {words}", answer_of(case.status, case.faults[:room], case.output))


def question_of(file):
    """Returns the question of a file's cases."""
    question = Question("qpk as foretold", file.replace(".", "_"), "qpk_foretold")
    for case in read_cases((DATA / file).read_text(encoding="utf-8")):
        question.begin("qpk")
        question.ask(f"input {shown_bytes(case.input)}", "")
        if case.is_broken:
            question.ask("breaks", "")
        for words in case.words:
            (ask_narrow_runs if file == NARROW else ask_runs)(question, case, words)
    return question


def read_lists():
    """Returns the lists of the corpus: the lines of each."""
    text = (DATA / "corpus.qif").read_text(encoding="utf-8")
    return [it.split("\n") for it in text.split("\n\n") if it.strip("\n")], text


def shown_output(lists):
    """Returns a pattern of what `show` prints: list i was sent on stream 4 i. Lines of the encoder stream are left out."""
    lines = []
    for number, fields in enumerate(lists):
        lines.append(rf"section {4 * number}: required insert count [^\n]*")
        lines += [rf"[^\n]*, {re.escape(it.replace(chr(9), ': '))}" for it in fields if it]
    return re.compile("".join(rf"(?:encoder [^\n]*\n)*{it}\n" for it in lines) + r"(?:encoder [^\n]*\n)*")


def inspected_output(lists):
    """Returns the lines of sections that `inspect` prints: how many fields each has, and the sum of their sizes (RFC 9204,
    section 3.2.1). A line has a tab, which is no part of the field, and an entry's overhead is 32."""
    sizes = [[len(it.encode()) + 31 for it in fields if it] for fields in lists]
    return [f"fields {len(it)} {sum(it)}" for it in sizes]


@dataclass
class Printed:
    """An expected run of status 0 without faults, whose output a function accepts."""

    accepts: object
    pattern: str = "the lists that were sent"

    def fullmatch(self, answer):
        """Returns something if the answer is the expected one."""
        found = re.fullmatch(r"0 nothing ([0-9a-f]*)", answer)
        return found if found and self.accepts(bytes.fromhex(found[1])) else None


def record_of(line):
    """Returns the record of a line of a recording. A block's stream is given the number above its own, since stream 0 is
    the encoder stream in a recording."""
    kind, *rest = line.split("\t")
    stream = 0 if kind == "e" else int(rest[0]) + 1
    data = bytes.fromhex(rest[-1])
    return stream.to_bytes(8, "big") + len(data).to_bytes(4, "big") + data


def ask_recording(question, words, text, lists, whole):
    """Asks for the lists of a recording."""
    lines = text.splitlines()
    if words.startswith("show"):
        pattern = shown_output(lists)
        data, accepts = text.encode(), lambda it: pattern.fullmatch(it.decode())
    elif words.startswith("inspect"):
        wanted = inspected_output(lists)
        data = "".join(f"{it.split(chr(9))[0]}\t{it.split(chr(9))[-1]}\n" for it in lines).encode()
        accepts = lambda it: [line for line in it.decode().splitlines() if line.startswith("fields ")] == wanted
    else:
        data, accepts = b"".join(map(record_of, lines)), lambda it: it == whole.encode()
    question.begin("qpk")
    question.ask(f"input {shown_bytes(data)}", "")
    question.ask(f"runs {words}", Printed(accepts))


def recorded_questions():
    """Returns the questions of recorded.txt. A line is `COMMAND < FILE` for a recording of nghttp3 0.8.0, or `COMMAND |
    COMMAND` to encode the lists and decode them again."""
    recordings = Question("qpk as foretold", "recorded_lists", "qpk_foretold")
    rounds = Question("qpk as foretold", "encoded_lists", "qpk_foretold")
    lists, whole = read_lists()
    for line in (DATA / "recorded.txt").read_text().splitlines():
        if " < " in line:
            words, file = line.split(" < ")
            ask_recording(recordings, words, (DATA / file).read_text(), lists, whole)
        elif " | " in line:
            encode, decode = line.split(" | ")
            rounds.begin("qpk")
            rounds.ask(f"input {shown_bytes(whole.encode())}", "")
            rounds.ask(f"pipes {encode}", re.compile(r"0 nothing \d+"))
            rounds.ask(f"runs {decode}", answer_of(0, b"", whole.encode()))
    return [recordings, rounds]


def read_questions():
    """Returns all questions."""
    return [*map(question_of, FILES), *recorded_questions()]
