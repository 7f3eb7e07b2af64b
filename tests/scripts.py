"""Scripts of calls by chance. Two ends answer each call lawfully, and at the end each section is decoded to the fields that
were passed to its encode, however late and cut the instruction streams come (RFC 9204, sections 2 and 4). The program of
tests judges that: it fails at an answer that is not lawful."""
import re
from dataclasses import dataclass

from asked import Question
from recorded import Numbers

CRATE = "two_ends_tests"
# How many scripts a question has, and how many calls a script.
SCRIPTS, CALLS = 400, 60
# More bytes than are ever on their way.
WHOLE = 1_000_000
STREAMS = 3
# The fields of scripts. A session takes those without a mark, which come first.
LONG = "c = a longer value, for which there is not always room"
UNMARKED = (":method = GET", "a = 1", "a = 2", "b = 1", "user-agent = x", LONG)
FIELDS = (
    *UNMARKED,
    *(f"never {it}" for it in UNMARKED),
    *(f"insert {it}" for it in ("a = 1", "b = 1", LONG)),
    *(f"reuse {it}" for it in ("a = 1", "a = 2", LONG)),
)
COUNTS = re.compile(r"(\d+) decoded, (\d+) with insertions, (\d+) blocked")


@dataclass(frozen=True)
class Kind:
    """Ends, and the scripts that they are given.

    In the settings each word `?N` is a number below N. Of a hundred scripts at least so many sections are decoded, so many of
    sections that require an insertion, and so many decodes have to wait. Where a number is None there are none."""

    settings: str
    fields: int
    capacity: int
    plays: int
    least: tuple


LARGE = "connection 4096 100 4096"
SMALL = "connection 400 2 100"
KINDS = (
    Kind("session ?200 ?200 ?4", 6, 200, 16, (100, 100, 0)),
    Kind(f"{LARGE} 1000", 18, 400, 3, (100, 40, 40)),
    Kind(f"{LARGE} 2", 18, 400, 1, (100, 10, 10)),
    Kind(f"{SMALL} 1000", 18, 400, 3, (100, 10, 10)),
    Kind(f"{SMALL} 2", 18, 400, 1, (100, 10, 10)),
    *(Kind(f"connection 4096 0 200 {it}", 18, 400, 3, (100, 0, None)) for it in (1000, 2)),
    *(Kind(f"connection 0 10 4096 {it}", 18, 400, 3, (0, None, None)) for it in (1000, 2)),
    *(Kind(f"connection 4096 1 {it} 1000", 18, 400, 3, (100, 10, 5)) for it in (64, 300)),
    *(Kind(f"connection 4096 1 {it} 2", 18, 400, 1, (100, 10, 5)) for it in (64, 300)),
)


@dataclass
class Scripts(Question):
    """Scripts with ends of a kind."""

    kind: Kind = None

    def compare(self, answers):
        """Returns why the answers are not the expected ones, or nothing."""
        fault = super().compare(answers)
        if fault:
            return fault
        told = [COUNTS.fullmatch(it) for (call, _), it in zip(self.calls, answers) if call == "counts"]
        sums = [sum(int(it[at]) for it in told) for at in (1, 2, 3)]
        for found, least in zip(sums, self.kind.least):
            if found * 100 < self.cases * (least or 0) or least is None and found:
                return f"{self.part}, {self.name}: {self.cases} scripts decode, insert and wait {sums} times"
        return ""


def chosen_settings(settings, numbers):
    """Returns settings with a number by chance in the place of each `?N`."""
    return " ".join(str(numbers.below(int(it[1:]))) if it[0] == "?" else it for it in settings.split())


def any_call(kind, numbers):
    """Returns a call by chance."""
    stream, number = numbers.below(STREAMS), numbers.below(20)
    if number < 5:
        return f"encodes {stream}" + "".join(f" | {FIELDS[numbers.below(kind.fields)]}" for _ in range(numbers.below(4)))
    if number < 9:
        return f"decodes {stream}"
    if number < 12:
        return f"to-decoder {numbers.below(60)}"
    if number < 14:
        return f"to-encoder {numbers.below(6)}"
    if number == 14:
        return f"sets {numbers.below(kind.capacity)}"
    if number < 18:
        return f"acks {stream}"
    if number == 18:
        return f"to-decoder {WHOLE}"
    return f"cancels {stream}" if numbers.below(3) == 0 else f"to-decoder {numbers.below(20)}"


def ask_script(question, kind, numbers):
    """Asks for a script. Then all that is on its way is delivered: each section of a stream that was not cancelled is decoded.
    If no stream was cancelled, every section is acknowledged then."""
    question.begin(chosen_settings(kind.settings, numbers))
    for _ in range(CALLS):
        question.ask(any_call(kind, numbers))
    question.ask("to-decoder all")
    for stream in range(STREAMS):
        question.ask(f"settles {stream}", "settled")
    question.ask("to-encoder all", "heard")
    question.ask("at-rest", "true")
    question.ask("counts", COUNTS)


def questions_of(place, kind, share):
    """Returns the questions of scripts with ends of a kind."""
    numbers, left = Numbers(0x9E37_79B9_7F4A_7C15), kind.plays * SCRIPTS // share
    questions = []
    while left:
        question = Scripts("scripts by chance", f"scripts_{place}_{len(questions)}", CRATE, kind=kind)
        scripts = min(left, SCRIPTS)
        for _ in range(scripts):
            ask_script(question, kind, numbers)
        questions.append(question)
        left -= scripts
    return questions


def round_question():
    """Returns the question of a thousand fields that go round in a session, one after the other: each is inserted, and at most
    one stays. A section names its field by the insert count in a window of four (RFC 9204, section 4.5.1.1)."""
    question = Question("fields that go round", "go_round", CRATE)
    question.begin("session 64 64 1")
    for n in range(1, 1001):
        question.ask(f"encodes 0 | n = {n}", re.compile(rf"encoded {n} 0{n % 4 + 1}8010 .*"))
        question.ask("to-decoder all", f"received {n} 01")
        question.ask("decodes 0", f"decoded {33 + len(str(n))} true | n = {n}")
        question.ask("acks 0", "acked 80")
        question.ask("to-encoder all", "heard")
    return question


def read_questions(share):
    """Returns all questions, with one of that many scripts."""
    return [it for place, kind in enumerate(KINDS) for it in questions_of(place, kind, share)] + [round_question()]
