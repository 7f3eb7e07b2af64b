"""What other implementations wrote, given to the calls in the names of h3 and to the ends of a connection.

A recording has lines `e TAB HEX`, bytes of the encoder stream, `b TAB STREAM TAB HEX`, a section, and `d TAB HEX`, bytes of
the decoder stream, which went back to the encoder.
"""
import re
from dataclasses import dataclass, field

import qif
from asked import DATA, Question, shown_bytes, shown_field, to_field

# Connections that nghttp3 0.8.0 wrote: a file, the maximum capacity of its decoder, and whether that reported after each
# section, or never.
NGHTTP3 = (
    ("nghttp3_0_0_ack", 0, True),
    ("nghttp3_256_8_ack", 256, True),
    ("nghttp3_4096_16_noack", 4096, False),
    ("nghttp3_4096_100_ack", 4096, True),
    ("nghttp3_65536_16_ack", 65536, True),
)
# Connections that Chromium 156 and Firefox 153 wrote to a server that allowed a table of 4,096 bytes.
BROWSERS = ("chromium_4096_100", "firefox_4096_100")
# What the example server wrote to these browsers, and their decoders to it: a file, and how many streams may be blocked.
# tests/browsers/record.py made it, with the encoder's capacity that follows. Where the encoder chooses otherwise, run it again.
ANSWERS = (("heard_chromium", 100), ("heard_firefox", 20))
ANSWERS_CAPACITY = 16384
# How often a recording is given with lines mutated, otherwise each time.
ROUNDS = 200
COUNT = re.compile(r"\d+")
PIECES = (1, 7, 65536)


@dataclass(frozen=True)
class Line:
    """A line of a recording."""

    kind: str
    stream: int
    data: bytes


def read_lines(name):
    """Returns the lines of a recording."""
    parts = [it.split("\t") for it in (DATA / f"{name}.txt").read_text().splitlines()]
    return [Line(it[0], int(it[1]) if it[0] == "b" else 0, bytes.fromhex(it[-1])) for it in parts]


def read_lists(name):
    """Returns the lists of a corpus."""
    return qif.read_lists(DATA / f"{name}.qif")


def size_of(fields):
    """Returns the sum of the fields' sizes (RFC 9204, section 3.2.1)."""
    return sum(len(name) + len(value) + 32 for name, value in fields)


def to_fields(fields):
    """Returns fields as a call has them."""
    return "".join(to_field(*it) for it in fields)


def shown_fields(fields):
    """Returns fields as an answer shows them."""
    return "".join(shown_field(*it) for it in fields)


# ---- Sections without a table


def stateless_question():
    """Blocks that h3 0.0.8 wrote are written alike, and read as the lists."""
    question = Question("blocks of h3", "stateless_h3", "h3_qpack_tests")
    blocks = (DATA / "stateless_h3.tsv").read_text().splitlines()
    lists = read_lists("corpus")
    assert len(blocks) == len(lists), "a block is missing"
    for fields, line in zip(lists, blocks):
        _, size, digits = line.split("\t")
        assert int(size) == size_of(fields), "h3 has another size"
        question.begin(f"stateless {size}")
        question.ask(f"encodes{to_fields(fields)}", size)
        question.ask("holds", digits)
        question.ask(f"decodes {digits}", f"{size} false{shown_fields(fields)}")
    return question


# ---- What a decoding end reads


def integer(data, at, bits):
    """Returns the integer with a prefix of so many bits, and where it ends (RFC 7541, section 5.1)."""
    value, ones = data[at] & ((1 << bits) - 1), (1 << bits) - 1
    at += 1
    if value < ones:
        return value, at
    shift = 0
    while data[at] & 0x80:
        value += (data[at] & 0x7F) << shift
        shift, at = shift + 7, at + 1
    return value + (data[at] << shift), at + 1


def skip_string(data, at, bits):
    """Returns where the string with a prefix of so many bits ends."""
    length, at = integer(data, at, bits)
    if at + length > len(data):
        raise IndexError
    return at + length


def next_instruction(data, at):
    """Returns where the encoder instruction at a place ends, and whether it inserts (RFC 9204, section 4.3)."""
    first = data[at]
    if first & 0x80:
        return skip_string(data, integer(data, at, 6)[1], 7), True
    if first & 0x40:
        return skip_string(data, skip_string(data, at, 5), 7), True
    return integer(data, at, 5)[1], not first & 0x20


@dataclass
class Insertions:
    """How many insertions the bytes of an encoder stream make."""

    left: bytes = b""
    count: int = 0

    def receive(self, data):
        """Takes bytes of the stream."""
        self.left += data
        at = 0
        try:
            while at < len(self.left):
                at, inserts = next_instruction(self.left, at)
                self.count += inserts
        except IndexError:
            pass
        self.left = self.left[at:]


def required_by(section, inserted, max_capacity):
    """Returns the required insert count of a section (RFC 9204, section 4.5.1.1)."""
    encoded = integer(section, 0, 8)[0]
    if encoded == 0:
        return 0
    entries = max_capacity // 32
    greatest = inserted + entries
    count = greatest // (2 * entries) * (2 * entries) + encoded - 1
    return count - 2 * entries if count > greatest else count


@dataclass
class DecoderStream:
    """What a decoding end writes. It reports insertions by increments where the stream is taken. Before an acknowledgment
    it reports those that were received, unless the section requires all of them (RFC 9204, sections 2.1.4 and 4.4)."""

    reported: int = 0
    unsent: bytes = b""

    def report(self, inserted):
        """Writes increments of at most 64 for what is not reported."""
        while self.reported < inserted:
            by = min(inserted - self.reported, 64)
            self.unsent += integer_bytes(by, 6, 0)
            self.reported += by

    def acknowledge(self, stream, required, inserted):
        """Writes the acknowledgment of a section, if it requires insertions."""
        if 0 < required < inserted:
            self.report(inserted)
        if required:
            self.unsent += integer_bytes(stream, 7, 0x80)
            self.reported = inserted

    def take(self, inserted):
        """Returns all that is to be sent."""
        self.report(inserted)
        taken, self.unsent = self.unsent, b""
        return taken


@dataclass
class Judge:
    """A recording as a decoding end reads it. What it answers is the verdict of the definitions: by the law
    `what_is_read_is_lawful` of `qpack_connection` the encoder kept to RFC 9204, if it evicted only insertions that were
    reported to it, and the last insertion that a section requires was not evicted. Both are asked for.

    The lists are in the order in which the sections could be decoded.
    """

    question: Question
    lists: list
    max_capacity: int
    reports: bool = False
    insertions: Insertions = field(default_factory=Insertions)
    known: int = 0
    decoded: int = 0
    waiting: list = field(default_factory=list)
    written: DecoderStream = field(default_factory=DecoderStream)

    def read_all(self, lines):
        """Asks for all lines."""
        self.question.begin(f"decoder {self.max_capacity} 100 65536")
        for line in lines:
            {"e": self.receive, "b": self.read_section, "d": lambda line: self.report()}[line.kind](line)
        assert self.decoded == len(self.lists) and not self.waiting, "a list is not decoded"

    def receive(self, line):
        """Asks for bytes of the encoder stream, and that no insertion was evicted that was not reported. Then for the
        sections that waited and wait no more: the one that waited for the fewest insertions first."""
        self.insertions.receive(line.data)
        self.question.ask(f"receives {shown_bytes(line.data)}", COUNT)
        self.question.ask(f"keeps {self.known + 1}", "true")
        for required, stream, data in sorted(self.waiting):
            if required <= self.insertions.count:
                blocked = sum(it[0] > self.insertions.count for it in self.waiting)
                self.question.ask("has", re.compile(rf"({blocked}|\d+) blocked, ready Some\({stream}\)"))
                self.waiting.remove((required, stream, data))
                self.decode(required, stream, data)

    def read_section(self, line):
        """Asks for a section, unless it waits."""
        required = required_by(line.data, self.insertions.count, self.max_capacity)
        if required > self.insertions.count:
            self.waiting.append((required, line.stream, line.data))
            waits = re.compile(rf"waits for {required}, \d+ blocked")
            self.question.ask(f"decodes {line.stream} {shown_bytes(line.data)}", waits)
            return
        self.decode(required, line.stream, line.data)
        if self.reports:
            self.report()

    def decode(self, required, stream, data):
        """Asks for a section that has the fields of the next list."""
        answer = f"{required}{shown_fields(self.lists[self.decoded])}"
        self.question.ask(f"decodes {stream} {shown_bytes(data)}", answer)
        if required:
            self.question.ask(f"keeps {required}", "true")
        self.written.acknowledge(stream, required, self.insertions.count)
        self.decoded += 1

    def report(self):
        """Asks for the decoder stream, which is sent."""
        self.question.ask("sends", shown_bytes(self.written.take(self.insertions.count)))
        self.known = self.insertions.count


def judged_question(name, lists, max_capacity, reports):
    """Has a decoding end judge a recording."""
    question = Question("recordings judged by a decoding end", f"judged_{name}", "qpack_connection_tests")
    Judge(question, lists, max_capacity, reports).read_all(read_lines(name))
    return question


# ---- What a decoder in the names of h3 reads, and a strict reading beside it


def replayed_question(name, lists, max_capacity):
    """A recording, received in pieces and decoded."""
    question = Question("recordings decoded in pieces", f"replayed_{name}", "h3_qpack_tests")
    lines, insertions = read_lines(name), Insertions()
    question.begin(f"h3-decoder 0 {max_capacity} pieces {' '.join(map(str, PIECES))}", len(PIECES))
    for line in lines:
        digits = shown_bytes(line.data)
        if line.kind == "b":
            fields = lists[line.stream // 4]
            shown = re.compile(f"{size_of(fields)} (true|false){re.escape(shown_fields(fields))}")
            question.ask(f"decodes {digits}", shown)
            question.ask(f"decodes-strictly {digits}", "the same strictly")
        else:
            insertions.receive(line.data)
            question.ask(f"delivers {digits}", "delivered")
    question.ask("inserted", str(insertions.count))
    question.ask("reports", str(insertions.count))
    question.end()
    return question


class Numbers:
    """Numbers that look random, and are the same on every run."""

    def __init__(self, seed):
        self.state = seed

    def below(self, limit):
        """Returns the next number below this one."""
        self.state = (self.state * 6364136223846793005 + 1442695040888963407) % 2**64
        return (self.state >> 33) % limit


def mutate(numbers, data):
    """Flips a bit, cuts the end off, takes a part out, or puts a part in twice."""
    start = numbers.below(max(len(data), 1))
    end = start + numbers.below(8)
    how = numbers.below(4)
    if how == 0:
        flipped = bytearray(data)
        if flipped:
            flipped[start] ^= 1 << numbers.below(8)
        return bytes(flipped)
    if how == 1:
        return data[:start]
    return data[:start] + data[end:] if how == 2 else data[:end] + data[start:]


@dataclass
class MutatedQuestion(Question):
    """A recording with one line in eight mutated, up to a refusal of its encoder stream in each round. Each answer is an
    error with a name, or fields that a strict reading has too, or rejects; and the table is what the bytes make that were
    taken. At least two lines a round are refused, and two are read."""

    def compare(self, answers):
        """Returns why the answers are not the expected ones, or nothing."""
        given = refused = 0
        has_ended = False
        for (call, _), answer in zip(self.calls, answers):
            is_refused = answer.startswith("refused ") and answer != "refused strictly"
            if call == "rebuilds":
                has_ended = False
            elif not has_ended:
                given, refused = given + 1, refused + is_refused
                has_ended = is_refused and call.startswith("delivers")
        fault = super().compare(answers)
        if not fault and min(refused, given - refused) < 2 * self.cases:
            fault = f"{self.part}, {self.name}: {refused} of {given} lines are refused"
        return fault


def mutated_question(name, max_capacity, rounds):
    """A recording with lines mutated, from a fixed seed."""
    question = MutatedQuestion("recordings mutated", f"mutated_{name}", "h3_qpack_tests")
    lines, numbers = read_lines(name), Numbers(9204)
    named = r"refused (?!Memory|InvalidString\(Memory)[A-Z].*"
    for _ in range(rounds):
        question.begin(f"h3-decoder 0 {max_capacity} pieces 7")
        for line in lines:
            data = line.data if numbers.below(8) else mutate(numbers, line.data)
            if line.kind == "b":
                expected = re.compile(f"the same strictly|refused strictly|{named}")
                question.ask(f"decodes-strictly {shown_bytes(data)}", expected)
            else:
                question.ask(f"delivers {shown_bytes(data)}", re.compile(f"delivered|{named}"))
        question.ask("rebuilds", "true")
    return question


# ---- What decoders of browsers wrote


def heard_question(name, max_blocked):
    """An encoding end writes again what the server wrote, and hears what the browser's decoder wrote. Each section is
    answered at the end."""
    question = Question("recordings heard by an encoding end", name, "qpack_connection_tests")
    lists = iter(read_lists(name))
    question.begin(f"encoder 65536 {max_blocked} {ANSWERS_CAPACITY} 100 of-header-fields")
    for line in read_lines(name):
        digits = shown_bytes(line.data)
        if line.kind == "b":
            question.ask(f"encodes {line.stream}{to_fields(next(lists))}", COUNT)
            question.ask("writes", digits)
        elif line.kind == "e":
            question.ask("holds", digits)
            question.ask("drops 1000000000", "nothing")
        else:
            question.ask(f"receives {digits}", "done")
    assert next(lists, None) is None, "a list is not encoded"
    question.ask("counts", re.compile("0 unacknowledged, .*"))
    return question


# ---- The corpus, exchanged


def exchanged_questions(capacity):
    """The corpus encoded by an encoder in the names of h3, with the bytes of a recording, and read by three readers: a
    decoder in those names, a strict reading, and a decoding end, which leaves out increments that an acknowledgment
    reports."""
    name, lists = f"exchanged_{capacity}", read_lists("corpus")
    lines = read_lines(name)
    rounds = [lines[at : at + 3] for at in range(0, len(lines), 3)]
    assert [it.kind for it in lines] == ["e", "b", "d"] * len(lists), f"{name} is not whole"
    session = Question("the corpus exchanged", f"session_{name}", "two_ends_tests")
    end = Question("the corpus exchanged", f"end_{name}", "qpack_connection_tests")
    strict = Question("the corpus exchanged", f"strict_{name}", "h3_qpack_tests")
    session.begin(f"session {capacity} {capacity} 100")
    end.begin(f"decoder {capacity} 0 {2**64 - 1}")
    end.ask(f"receives {capacity_instruction(capacity).hex()}", "0")
    strict.begin(f"h3-decoder {capacity} any")
    insertions, written = Insertions(), DecoderStream()
    for fields, (sent, block, answered) in zip(lists, rounds):
        ask_session(session, fields, sent, block, answered)
        insertions.receive(sent.data)
        written.acknowledge(block.stream, required_by(block.data, insertions.count, capacity), insertions.count)
        end.ask(f"receives {shown_bytes(sent.data)}", COUNT)
        end.ask(f"decodes {block.stream} {block.data.hex()}", re.compile(rf"\d+{re.escape(shown_fields(fields))}"))
        end.ask("sends", shown_bytes(written.take(insertions.count)))
        strict.ask(f"delivers {shown_bytes(sent.data)}", "delivered")
        strict.ask(f"decodes-strictly {block.data.hex()}", "the same strictly")
    return [session, end, strict]


def ask_session(question, fields, sent, block, answered):
    """Asks for a list that goes from an encoder to a decoder. The bytes that go back end with an acknowledgment, if the
    section requires an entry."""
    requires = block.data[0] > 0
    acked = len(capacity_instruction(block.stream, 7)) if requires else 0
    increments, acknowledgment = (answered.data[:-acked], answered.data[-acked:]) if acked else (answered.data, b"")
    encoded = re.compile(rf"encoded \d+ {block.data.hex()} {shown_bytes(sent.data)}")
    question.ask(f"encodes {block.stream}{to_fields(fields)}", encoded)
    question.ask("to-decoder all", re.compile(rf"received \d+ {shown_bytes(increments)}"))
    decoded = f"decoded {size_of(fields)} {'true' if requires else 'false'}{shown_fields(fields)}"
    question.ask(f"decodes {block.stream}", decoded)
    question.ask(f"acks {block.stream}", f"acked {acknowledgment.hex()}" if requires else "skipped 4")
    question.ask("to-encoder all", "heard")


def capacity_instruction(capacity, bits=5):
    """Returns the instruction that sets a capacity (RFC 9204, section 4.3.1), or another integer under flags."""
    return integer_bytes(capacity, bits, 1 << bits)


def integer_bytes(value, bits, flags):
    """Returns an integer with a prefix of this many bits, under flags (RFC 9204, section 4.1.1)."""
    ones = (1 << bits) - 1
    if value < ones:
        return bytes([flags | value])
    data, rest = [flags | ones], value - ones
    while rest > 127:
        data.append(rest % 128 | 128)
        rest //= 128
    return bytes([*data, rest])


def read_questions(share):
    """Returns all questions, with one of so many rounds of mutations."""
    lists = read_lists("corpus")
    questions = [stateless_question()]
    for name, max_capacity, reports in NGHTTP3:
        questions.append(judged_question(name, lists, max_capacity, reports))
        questions.append(replayed_question(name, lists, max_capacity))
        questions.append(mutated_question(name, max_capacity, ROUNDS // share))
    questions += [judged_question(it, read_lists(it), 4096, False) for it in BROWSERS]
    questions += [heard_question(*it) for it in ANSWERS]
    return [*questions, *exchanged_questions(4096), *exchanged_questions(65536)]
