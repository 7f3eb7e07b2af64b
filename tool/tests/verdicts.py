#!/usr/bin/env python3
"""Plants faults of real programs in recordings of browsers, and holds the verdict of qpk check on each to a table.

    tool/tests/verdicts.py

The table is tool/tests/planted/verdicts.tsv, and the recordings are captures of Chromium and Firefox in tests/captured. A row is
worth three points: the place, with its end and byte; the standard's section and the code; and the cause. Nothing else may
be listed: what follows from the fault is counted. Where a piece of a stream is left out, no end is wrong, and check can't
know that: it blames the decoder that counts more, and says that insertions may be missing. Without libcrypto nothing is
tested. It ends with a line 'verdicts: N tests .. passed', and with status 1 if a test failed.
"""
import sys

from connections import run_with_libcrypto
from planted import NEW_STREAM, TABLE, ask, findings_of, integer, lines_of, section

# This is in tool/, which captures.py puts into the path of modules.
from qpk.findings import Causes
from qpk.lines import ENDS

VERDICTS = TABLE.with_name("verdicts.tsv")
COLUMNS = ("fault", "recording", "end", "subject", "byte", "rule", "code", "cause")
POINTS = 3  # of a row
LEFT_OUT = "a piece of the encoder stream is left out"
OWN, PEER = ">", "<"  # the client's encoder is the one that most faults are of
CAPACITY = b"\x3f\xe1\x1f"  # 4096
REQUEST = b"\xd1\xd7\x50\x01a"  # :method: GET, :scheme: https, :authority: a


def insertion(name, value):
    """Returns the insertion of a short field."""
    return integer(0x40, 5, len(name)) + name + integer(0, 7, len(value)) + value


def literal(name, value):
    """Returns a literal field line with a literal name."""
    return integer(0x20, 3, len(name)) + name + integer(0, 7, len(value)) + value


def entry(base, number):
    """Returns the field line that references an entry, by its number from 1."""
    return integer(0x80, 6, base - number)


class Plant:
    """A recording that goes on: what the client's encoder has inserted, and what waits for an acknowledgment."""

    def __init__(self, lines):
        self.lines = list(lines)
        self.inserted = self.known = 0
        self.taken = {}  # bytes of streams, by mark and kind
        self.open = []  # sections of the client that wait for an acknowledgment: stream and required insert count
        for it in ask("show", lines):
            if it.get("from") == "client" and "entry" in it:
                self.inserted += 1
            elif it.get("from") == "client" and "blocked_until" in it:
                self.open.append((it["section"], it["blocked_until"]))
            elif it.get("from") == "client" and it.get("required_insert_count") and not it["was_blocked"]:
                self.open.append((it["section"], it["required_insert_count"]))
            elif it.get("from") == "server" and it.get("instruction") in ("acknowledge", "increment"):
                self.hear(it)
        for line in lines:
            _, mark, kind, *words = line.split()
            if kind in "ed":
                self.taken[mark, kind] = self.taken.get((mark, kind), 0) + len(words[-1]) // 2

    def hear(self, it):
        """Takes an acknowledgment or an increment."""
        if it["instruction"] == "increment":
            self.known += it["by"]
            return
        at = next(at for at, (stream, _) in enumerate(self.open) if stream == it["stream"])
        self.known = max(self.known, self.open.pop(at)[1])

    def add(self, mark, kind, data):
        """Adds a line with bytes."""
        self.lines.append(f"@9 {mark} {kind} {data.hex()}")

    def settle(self):
        """Has the decoder acknowledge all that it did not."""
        data = b"".join(integer(0x80, 7, stream) for stream, _ in self.open)
        known = max([self.known, *(required for _, required in self.open)])
        data += integer(0, 6, self.inserted - known) if self.inserted > known else b""
        self.open, self.known = [], self.inserted
        self.taken[PEER, "d"] += len(data)
        if data:
            self.add(PEER, "d", data)
        return self

    def insert(self, *fields, more=b""):
        """Has the encoder insert fields, after other instructions that insert none."""
        data = more + b"".join(insertion(*it) for it in fields)
        self.inserted += len(fields)
        self.taken[OWN, "e"] += len(data)
        self.add(OWN, "e", data)
        return self

    def send(self, lines, required=None, base=None, stream=NEW_STREAM, mark=OWN):
        """Adds a section."""
        required = self.inserted if required is None else required
        self.add(mark, f"b {stream}", section(required, required if base is None else base, lines))
        return self


# ---- The faults. Each takes a recording, and returns where the fault is: its line, and the bytes of its stream before it.


def at_end(plant, mark=None, kind=None):
    """Returns the place of the last line."""
    return len(plant.lines), plant.taken.get((mark, kind), 0)


def evicted_entry(plant):
    """All is evicted by a capacity of 0, and an old entry is referenced."""
    plant.settle().insert((b"x-a", b"b"), more=b"\x20" + CAPACITY)
    plant.send(b"\xd1\xd7\xc1" + entry(plant.inserted, 3))
    return at_end(plant)


def high_base(plant):
    """The delta of the base is 3, and the indexes count from the required insert count."""
    plant.settle().insert((b":path", b"/one"), (b"x-a", b"b"))
    plant.send(b"\xd1\xd7\xc1" + entry(plant.inserted, plant.inserted), base=plant.inserted + 3)
    return at_end(plant)


def missing_piece(plant):
    """A line of the encoder stream is left out, in the middle of those behind which an increment comes."""
    pieces = [at for at, it in enumerate(plant.lines) if f" {OWN} e " in it]
    del plant.lines[pieces[len(pieces) // 2]]
    return None, 0


def zero_increment(plant):
    """The decoder writes an increment though nothing came."""
    plant.settle().add(PEER, "d", b"\0")
    return at_end(plant, PEER, "d")


def large_capacity(plant):
    """The encoder sets twice the capacity that SETTINGS allow."""
    plant.add(OWN, "e", integer(0x20, 5, 8192))
    return at_end(plant, OWN, "e")


def wrong_padding(plant):
    """The value of an insertion ends in a 0 where padding is to be ones."""
    plant.add(OWN, "e", bytes.fromhex("6294e7838c767e"))
    return at_end(plant, OWN, "e")


def second_acknowledgment(plant):
    """The last section that was acknowledged is so again."""
    plant.settle().insert((b":path", b"/one")).send(REQUEST + b"\x80")
    for _ in range(2):
        plant.add(PEER, "d", integer(0x80, 7, NEW_STREAM))
    return len(plant.lines), plant.taken[PEER, "d"] + len(integer(0x80, 7, NEW_STREAM))


def acknowledged_after_cancellation(plant):
    """A stream is cancelled, and its section acknowledged."""
    plant.settle().insert((b":path", b"/one")).send(REQUEST + b"\x80")
    plant.add(PEER, "d", integer(0x40, 6, NEW_STREAM))
    plant.add(PEER, "d", integer(0x80, 7, NEW_STREAM))
    return len(plant.lines), plant.taken[PEER, "d"] + len(integer(0x40, 6, NEW_STREAM))


def too_many_blocked(plant):
    """17 streams reference an entry that did not come, and 16 may be blocked."""
    plant.settle()
    for number in range(17):
        plant.send(REQUEST + b"\x80", required=plant.inserted + 1, stream=NEW_STREAM + 4 * number)
    return at_end(plant)


def large_count(plant):
    """The required insert count is too large by 130, so that it is read modulo 256 as one below."""
    for _ in range(3):
        plant.settle().insert(*[(b"x-%d" % it, b"") for it in range(50)])
    plant.settle().send(b"\xd1\xd7\xc1" + entry(plant.inserted + 130, plant.inserted), required=plant.inserted + 130)
    return at_end(plant)


def capitals(plant):
    """A name is as the application wrote it."""
    plant.send(REQUEST + b"\xc1" + literal(b"X-Foo", b"a"), required=0)
    return at_end(plant)


def late_status(plant):
    """A response begins with another field than :status."""
    plant.send(literal(b"x-foo", b"a") + b"\xd9", required=0, mark=PEER)
    return at_end(plant)


def wrong_sign(plant):
    """The sign of the base is set, so that each index hits the entry before."""
    plant.settle().insert((b"x-a", b"b"), (b":path", b"/one"), (b"x-c", b"d"))
    newest = plant.inserted
    plant.send(REQUEST + entry(newest, newest - 1) + entry(newest, newest), base=newest - 1)
    return at_end(plant)


def evicted_while_referenced(plant):
    """A section references the newest entry, and before it is acknowledged the capacity becomes 0."""
    plant.settle().insert((b":path", b"/one")).send(REQUEST + b"\x80")
    plant.add(PEER, "d", b"\x01")
    plant.add(OWN, "e", b"\x20")
    return at_end(plant, OWN, "e")


def evicted_unacknowledged(plant):
    """Nothing tells that an insertion was received, and the capacity becomes 0."""
    plant.settle().insert((b"x-a", b"b"))
    plant.add(OWN, "e", b"\x20")
    return at_end(plant, OWN, "e")


def too_many_at_risk(plant):
    """17 streams reference an insertion that came, and is not acknowledged."""
    plant.settle().insert((b":path", b"/one"))
    for number in range(17):
        plant.send(REQUEST + b"\x80", stream=NEW_STREAM + 4 * number)
    return at_end(plant)


def silent_decoder(plant):
    """The server's decoder writes nothing."""
    plant.lines[:] = [it for it in plant.lines if f" {PEER} d " not in it]
    return None, 0


FAULTS = {
    "an index of an entry that was evicted": evicted_entry,
    "a base that is too high by 3": high_base,
    LEFT_OUT: missing_piece,
    "an increment of 0": zero_increment,
    "a capacity of twice the maximum": large_capacity,
    "a Huffman code that ends in a 0 for padding": wrong_padding,
    "a section is acknowledged twice": second_acknowledgment,
    "a stream is cancelled, and then acknowledged": acknowledged_after_cancellation,
    "17 blocked streams, where 16 may be": too_many_blocked,
    "a required insert count that is too large by 130": large_count,
    "a name in capitals": capitals,
    ":status after another field": late_status,
    "a base with the wrong sign": wrong_sign,
    "an entry is evicted that an unacknowledged section references": evicted_while_referenced,
    "an entry is evicted whose insertion is not acknowledged": evicted_unacknowledged,
    "17 streams could be blocked, where 16 may be": too_many_at_risk,
    "a decoder that acknowledges no section": silent_decoder,
}


# ---- The verdict


def read_verdicts():
    """Returns the rows of the table."""
    rows = [line.split("\t") for line in VERDICTS.read_text("utf-8").splitlines() if not line.startswith("#")]
    return [dict(zip(COLUMNS, row)) for row in rows]


def listed(findings):
    """Returns the findings that follow from no other one, in the order of their lines."""
    causes = Causes(findings)
    found = [it for number, it in enumerate(findings) if causes.first_of(number) == number]
    return sorted(found, key=lambda it: it.line)


def points_of(row):
    """Plants a fault, and returns the points that the verdict has, with what was listed."""
    plant = Plant(lines_of(row["recording"]))
    line, before = FAULTS[row["fault"]](plant)
    found = listed(findings_of(plant.lines))
    if not found:
        return 0, found
    it = found[0]
    byte = before + int(row["byte"].lstrip("+")) if row["byte"] != "?" else it.offset
    is_placed = (ENDS[it.mark], it.subject, it.offset) == (row["end"], row["subject"], byte) and line in (None, it.line)
    has_rule = (f"{it.standard} {it.section}", it.code[:6] or "-") == (row["rule"], row["code"])
    return is_placed + has_rule + (row["cause"] in it.cause), found


def test_verdicts():
    """Each fault has all its points, and nothing else is listed; where a piece is left out, the place is another."""
    table = read_verdicts()
    assert {it["fault"] for it in table} == set(FAULTS)
    for row in table:
        points, found = points_of(row)
        if row["fault"] == LEFT_OUT:
            assert points == POINTS - 1, (row, points, found)
        else:
            assert points == POINTS and len(found) == 1, (row, points, found)


def test_what_is_planted_is_all_that_is_wrong():
    """What a plant needs around its fault is right: with the fault left out nothing is found."""
    for name in {it["recording"] for it in read_verdicts()}:
        plant = Plant(lines_of(name)).settle().insert((b":path", b"/one"), (b"x-a", b"b"))
        plant.send(REQUEST + entry(plant.inserted, plant.inserted - 1) + entry(plant.inserted, plant.inserted))
        plant.add(PEER, "d", integer(0x80, 7, NEW_STREAM))
        plant.add(OWN, "e", b"\x20")
        plant.send(literal(b"x-trailer", b"a"), required=0)
        plant.send(b"\xd8", required=0, mark=PEER).send(b"\xd9", required=0, mark=PEER)
        assert not findings_of(plant.lines), (name, findings_of(plant.lines))


if __name__ == "__main__":
    sys.exit(run_with_libcrypto(globals(), "verdicts"))
