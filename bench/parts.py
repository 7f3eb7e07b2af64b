#!/usr/bin/env python3
"""Says what each part of the encoder's rule gives: the bytes that the rule of rule.h would write without it.

    bench/parts.py              prints the table
    bench/parts.py --record     writes it to bench/rule-parts.tsv

A part is left out by another value of a constant of rule.h. The table has the mean of the bytes over those of encoders that
know what comes, for each capacity and limit of blocked streams, as bench/bound.py has it; and by how much the worst corpus
grows in the mean of its settings. It needs no Rattle, and takes a minute.
"""
import datetime
import re
import shutil
import sys
import tempfile
from pathlib import Path

sys.dont_write_bytecode = True
import bound  # pylint: disable=wrong-import-position # bench/bound.py

TABLE = bound.BENCH / "rule-parts.tsv"
# So large that no field, entry or score reaches it.
NEVER = "1000000000"
# Each part, and the constants that leave it out.
PARTS = {
    "all parts": {},
    "far entries are inserted again": {"FAR": NEVER},
    "what drains is inserted again": {"PART_THAT_DRAINS": NEVER},
    "likely values are inserted at first sight": {"LIKELY": NEVER, "LIKELY_AT_THE_LIMIT": NEVER, "LIKELY_IF_TIGHT": NEVER},
    "dates are expected to come again": {"DATED": "128"},
    "unlikely values are not, even where there is room": {"UNLIKELY": "-1"},
    "long values have scores of their own": {"LONG": NEVER},
    "fields are inserted for their names": {"MOST_FOR_NAMES": "0"},
    "insertions name what they evict": {"NAMES_EVICTED": "0"},
    "small tables keep what was referenced lately": {"LARGE": "1"},
    "insertions are paid at the limit": {"FIFTHS_OWED": NEVER, "SIXTEENTHS_OWED": NEVER},
    "what earned much takes its own room": {"TIMES_EARNED": NEVER},
}


def write_rule(folder, constants):
    """Copies the programs to a folder, with other values of constants in rule.h."""
    shutil.copytree(bound.BENCH, folder / "bench")
    shutil.copytree(bound.TOP / "c", folder / "c")
    rule = folder / "bench" / "rule.h"
    text = rule.read_text(encoding="utf-8")
    for name, value in constants.items():
        text, count = re.subn(rf"^#define {name} .*$", f"#define {name} {value}", text, flags=re.M)
        if count != 1:
            sys.exit(f"parts: {rule.name} has {count} constants {name}")
    rule.write_text(text, encoding="utf-8")


def play(archive, constants):
    """Returns the bytes of each setting and its bound, by the rule with these constants."""
    with tempfile.TemporaryDirectory(prefix="h3-qpack-parts-") as name:
        room = Path(name)
        write_rule(room, constants)
        rows = bound.read_rows(bound.play(archive, room, "--rule", bench=room / "bench"))
    return {tuple(of): (count, least) for of, count, least in bound.read_settings(rows)}


def mean(numbers):
    numbers = list(numbers)
    return sum(numbers) / len(numbers)


def row_of(part, found, whole):
    """Returns the row of a part that was left out, beside the whole rule."""
    groups = dict.fromkeys((of[1], of[2]) for of in whole)
    means = [mean(found[of][0] / found[of][1] for of in whole if of[1:3] == group) for group in groups]
    growth = {
        name: mean(found[of][0] / whole[of][0] for of in whole if of[0] == name) for name in sorted({of[0] for of in whole})
    }
    worst = max(growth, key=growth.get)
    return "\t".join([part, *(f"{it:.3f}" for it in means), f"{growth[worst]:.3f}", worst])


def main(words):
    if words not in ([], ["--record"]):
        sys.exit(__doc__)
    with tempfile.TemporaryDirectory(prefix="h3-qpack-parts-") as room:
        archive = bound.make_archive(Path(room))
        plays = {part: play(archive, constants) for part, constants in PARTS.items()}
    whole = plays["all parts"]
    groups = dict.fromkeys(f"{of[1]}, {of[2]} blocked" for of in whole)
    rows = ["\t".join(["left out", *groups, "growth", "of"]), *(row_of(part, found, whole) for part, found in plays.items())]
    text = "\n".join(rows).replace("all parts", "nothing", 1) + "\n"
    if words:
        TABLE.write_text(f"# Written by bench/parts.py --record on {datetime.date.today()}.\n{text}", encoding="utf-8")
    print(text, end="")
    return 0


if __name__ == "__main__":
    sys.exit(main(sys.argv[1:]))
