"""Has ls-qpack read what h3_qpack writes of corpora, by pylsqpack itself, and compares each field.

    python3 reads.py CORPUS..

The requests and the responses of a corpus have an encoder each, in tables of six capacities. Where streams may be blocked,
every other section comes before its instructions, and waits in ls-qpack. The decoder answers at once, or eight sections late.
It prints how many sections were read, and how many of them waited.
"""

import itertools
import sys
from pathlib import Path

from played import CAPACITIES, LIMITS, Connection, Ours, part_lists

LATE = (0, 8)


def main():
    read = waited = 0
    for path in map(Path, sys.argv[1:]):
        for _, lists in part_lists(path):
            for capacity, limit, late in itertools.product(CAPACITIES, LIMITS, LATE):
                connection = Connection(Ours, capacity, limit, late)
                for number, fields in enumerate(lists):
                    connection.exchange(number, fields, limit > 0 and number % 2 == 1)
                read += len(lists)
                waited += connection.waited
    assert waited, "no section waited"
    print(f"{read} sections read by ls-qpack, of which {waited} waited for their instructions")


if __name__ == "__main__":
    main()
