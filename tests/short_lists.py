"""Every list of at most two bytes, passed to each call that reads bytes of a peer, at five capacities: each outcome is that
of a plain reading of RFC 9204. The table is empty, so that no dynamic reference means anything, and a string has at most one
byte."""
import re
from pathlib import Path

from asked import Question

TOP = Path(__file__).resolve().parent.parent

# The capacities of the tables in bytes.
CAPACITIES = (0, 1, 31, 32, 4096)
CALLS = ("receives", "hears", "decodes", "decodes-alone")


def name_lengths():
    """Returns the lengths of the names of the static table (RFC 9204, appendix A), as the definitions have it."""
    text = (TOP / "crates" / "qpack_spec" / "specs" / "StaticTable.antt").read_text(encoding="utf-8")
    names = re.findall(r'^    field \(codes "([^"]*)"\)', text, re.M)
    assert len(names) == 99, "the static table has another length"
    return [len(it) for it in names]


NAME_LENGTHS = name_lengths()


def integer(data, ones):
    """Returns the integer at the front with a prefix under a mask, and how many bytes it has, or nothing if it is cut. With
    two bytes at most it is never too large (RFC 9204, section 4.1.1)."""
    if not data:
        return None
    first = data[0] & ones
    if first < ones:
        return first, 1
    return None if len(data) < 2 or data[1] > 127 else (first + data[1], 2)


def is_one_character(byte):
    """Whether a byte is one character in the Huffman code with its padding of ones (RFC 7541, appendix B): the codes of 5
    bits end with that of `t`, those of 6 with `u`, those of 7 with `z`, and those of 8 with `Z`."""
    if byte <= 0x4F:
        return byte % 8 == 7
    if byte <= 0xB7:
        return byte % 4 == 3
    return byte % 2 == 1 if byte <= 0xF7 else byte <= 0xFD


def instruction(data):
    """Returns the whole encoder instruction at the front, if there is one (RFC 9204, section 4.3): what it does, a number,
    and how many bytes it has. An insertion is of the size of its field."""
    first, second = data[0], data[1] if len(data) > 1 else None
    has_empty_value = second in (0x00, 0x80)
    if first >= 0xC0 and first < 0xFF and has_empty_value:
        return "insert", NAME_LENGTHS[first & 0x3F] + 32, 2
    if 0x80 <= first <= 0xBE and has_empty_value:
        return "no entry", first & 0x3F, 0
    if first in (0x40, 0x60) and has_empty_value:
        return "insert", 32, 2
    if first == 0x61 and second is not None and not is_one_character(second):
        return "bad name", 0, 0
    if first < 0x40:
        read = integer(data, 0x1F)
        return read and (("set", *read) if first >= 0x20 else ("no entry", read[0], 0))
    return None


def receive(capacity, data):
    """Bytes of the encoder stream, instruction by instruction (RFC 9204, sections 3.2 and 4.3). A refusal by the table alone
    consumes its instruction."""
    answer, inserted = "Ok(0)", 0
    while data:
        read = instruction(data)
        if not read:
            break
        what, number, length = read
        data = data[length:]
        if what == "set":
            capacity = number
        elif what == "insert" and number <= capacity:
            answer, inserted = "Ok(1)", 1
        elif what == "insert" and capacity > 0:
            answer = "Err(DynamicTable(MaxTableSizeReached))"
        elif what == "no entry":
            answer = f"Err(DynamicTable(BadRelativeIndex({number})))"
        elif what == "bad name":
            answer = "Err(UnexpectedEnd)"
        if answer.startswith("Err"):
            break
    return f"{answer} {len(data)} {capacity} {inserted} {inserted}"


def hear(capacity, data):
    """Bytes of the decoder stream, instruction by instruction (RFC 9204, section 4.4)."""
    answer = "Ok(0)"
    while data:
        is_acknowledgment = data[0] > 127
        read = integer(data, 0x7F if is_acknowledgment else 0x3F)
        if not read:
            break
        data = data[read[1] :]
        if is_acknowledgment:
            answer = f"Insertion(UnknownStreamId({read[0]}))"
            break
    return f"{answer} {len(data)} {capacity} 0 0"


def decode(capacity, data):
    """A field section under an empty table, which holds nothing but a prefix (RFC 9204, sections 4.5.1.1 and 4.5.1.2)."""
    count = integer(data, 0xFF)
    delta = count and integer(data[count[1] :], 0x7F)
    if not delta:
        return "Err(InvalidInteger(UnexpectedEnd)) 0 0 0 0"
    is_below, required = data[count[1]] > 127, count[0] - 1
    if capacity == 0 or count[0] == 0:
        return "Ok(0) 0 0 0 0"
    if required == 0 or required > capacity // 32:
        return "Err(InvalidInteger(Overflow)) 0 0 0 0"
    if is_below and delta[0] >= required:
        return f"Err(BadBaseIndex({required - delta[0] - 1})) 0 0 0 0"
    return f"Err(MissingRefs({required})) 0 0 0 0"


def decode_alone(_capacity, data):
    """A field section without a table, which is as one with a table of capacity 0."""
    return decode(0, data)


READINGS = dict(zip(CALLS, (receive, hear, decode, decode_alone)))


def lists_of(first):
    """Returns the lists that begin with a byte: that of one byte, and those of two; or the empty one."""
    if first == "nothing":
        return [b""]
    return [bytes([first]), *(bytes([first, second]) for second in range(256))]


def outcomes(call, capacity, lists):
    """Returns the outcomes of lists. One that is as the one before is left out."""
    found, last = [], None
    for place, data in enumerate(lists):
        outcome = READINGS[call](capacity, data)
        if outcome != last:
            found.append(f"{place} {outcome}; ")
            last = outcome
    return "".join(found)


class Expected:
    """The outcomes that are expected of a call of the lists that begin with a byte. They are made where they are compared."""

    def __init__(self, call, capacity, first):
        self.words = call, capacity, lists_of(first)
        self.pattern = "the outcomes of a plain reading"

    def fullmatch(self, answer):
        """Returns whether the answer has these outcomes, or nothing."""
        expected = outcomes(*self.words)
        if answer == expected:
            return True
        pairs = zip(answer.split("; "), expected.split("; "))
        self.pattern = next((f"{was}, where a plain reading has {wanted}" for was, wanted in pairs if was != wanted), "more")
        return None


def question_of(call, capacity, half, step):
    """Returns the question of the lists that begin with one of half of all bytes, or with each byte that is a step further."""
    question = Question("lists of at most two bytes", f"short_{call}_{capacity}_{half}".replace("-", "_"), "h3_qpack_tests")
    question.begin(f"short-lists {capacity}")
    for first in (["nothing"] if half == 0 else []) + list(range(128 * half, 128 * half + 128, step)):
        question.ask(f"{call} {first}", Expected(call, capacity, first))
    return question


def read_questions(share):
    """Returns all questions. If a share of the rounds is asked for, they are of the lists that begin with one byte in seven."""
    step = 1 if share == 1 else 7
    return [question_of(call, capacity, half, step) for call in CALLS for capacity in CAPACITIES for half in (0, 1)]
