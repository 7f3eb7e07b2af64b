"""Compares the bytes that h3_qpack writes of corpora with those of ls-qpack, by pylsqpack itself, which decodes both.

    python3 bytes.py CORPUS..

A cell is a corpus at one of six capacities, where 100 streams may be blocked or none may, with answers at once, eight or 32
sections late, and how many of its first lists make the connection, as in bench/cells.c. It prints, for each number of lists,
how many cells there are, the mean of the ratios, and each cell where h3_qpack writes more than 1.02 of ls-qpack's bytes, or
of less than 100 lists more than 1.08. A corpus with a field that ls-qpack does not take is left out, and named.
"""

import itertools
import sys
from pathlib import Path

from played import CAPACITIES, LIMITS, Connection, Ours, Theirs, part_lists

LATE = (0, 8, 32)
LENGTHS = (10, 30, 100)
# The greatest ratio that is not named, of connections of at least MANY lists, and of shorter ones.
MANY = 100
MOST_OF_MANY, MOST_OF_FEW = 1.02, 1.08


def count_bytes(encoder, setting, lists):
    """Returns the bytes of the first lists, by how many there are."""
    connection, counts = Connection(encoder, *setting), {}
    for number, fields in enumerate(lists):
        connection.exchange(number, fields)
        if number + 1 in (*LENGTHS, len(lists)):
            counts[number + 1] = connection.sent
    return counts


def compare(name, lists):
    """Yields the cells of a corpus: its name, the setting, the number of lists, and both counts of bytes."""
    for setting in itertools.product(CAPACITIES, LIMITS, LATE):
        ours, theirs = count_bytes(Ours, setting, lists), count_bytes(Theirs, setting, lists)
        yield from ((name, *setting, count, ours[count], theirs[count]) for count in ours)


def main():
    cells = []
    for path in map(Path, sys.argv[1:]):
        for name, lists in part_lists(path):
            try:
                cells += compare(name, lists)
            except ValueError as error:
                print(f"left out: {name}: {error}")
    for length in (*LENGTHS, None):
        some = [it for it in cells if it[4] == length or length is None and it[4] not in LENGTHS]
        mean = sum(ours / theirs for *_, ours, theirs in some) / len(some)
        print(f"first {length}" if length else "all", f"lists: {len(some)} cells, {mean:.3f} of ls-qpack's bytes in the mean")
    for *of, count, ours, theirs in cells:
        if ours / theirs > (MOST_OF_MANY if count >= MANY else MOST_OF_FEW):
            print(f"{ours / theirs:.3f}", *of, count, ours, theirs, sep="\t")


if __name__ == "__main__":
    main()
