#!/usr/bin/env python3
"""Holds the bytes that the library writes to a recorded table, beside those of encoders that know which fields come next.

    bench/bound.py [ARCHIVE]     compares over an archive of the library, or over that of dist/
    bench/bound.py --record      plays over dist/, and writes bench/bytes-against-bound.tsv
    bench/bound.py --rule        says what the rule of bench/rule.h would write, beside what is recorded

bench/bound.c plays the recorded corpora, those of traffic.h and those of corpora.py, and prints a table, which is the same on
every machine. A row that is not as it was recorded is a fault: after a change of the rule, record the table again. The last
lines have the mean of bytes over the bound for each capacity. The exit status is 1 if there is a fault.

To try another rule, write it in rule.h, where bench/model.c holds the one of the library. Lines say, for each capacity and
limit of blocked streams, the mean of bytes over the bound, the mean over the recorded bytes, and the worst setting by these.
"""
import datetime
import os
import subprocess
import sys
import tempfile
from pathlib import Path

sys.dont_write_bytecode = True
import corpora  # pylint: disable=wrong-import-position # bench/corpora.py

BENCH = Path(__file__).resolve().parent
TOP = BENCH.parent
# The corpora; not the lists that browsers answered, heard_*.qif, which are like to_*.qif.
RECORDED = sorted((TOP / "crates" / "qpack_tests" / "data").glob("[!h]*.qif"))
TABLE = BENCH / "bytes-against-bound.tsv"
# The most rows that are printed of those that differ.
MOST_ROWS = 20


def run(*command):
    """Runs a command and returns what it prints; if it fails, says what it said, and ends."""
    ran = subprocess.run(command, stdin=subprocess.DEVNULL, capture_output=True, text=True, errors="replace")
    if ran.returncode:
        sys.exit(f"{ran.stdout}{ran.stderr}bound: failed: {command[0]}")
    return ran.stdout


def make_archive(room):
    """Builds the library of dist/, and returns its archive."""
    run("make", "-s", "-C", TOP / "dist", f"BUILD={room / 'made'}", room / "made" / "libh3_qpack.a")
    return room / "made" / "libh3_qpack.a"


def play(archive, room, *options, bench=BENCH):
    """Returns the table that bound.c of a folder prints over an archive, with these options."""
    program = room / "bound"
    words = ["-std=c11", "-D_GNU_SOURCE", "-Wall", "-Wextra", "-Werror", "-O2", f"-I{TOP / 'dist'}"]
    run(os.environ.get("CC", "cc"), *words, bench / "bound.c", archive, "-o", program)
    made = room / "corpora"
    made.mkdir()
    return run(program, *options, *RECORDED, *corpora.write_corpora(made))


def read_rows(text):
    """Returns the figures of the rows of a table, by what they are of: a setting, or a corpus, a capacity and a limit."""
    rows = {}
    for line in text.splitlines():
        columns = line.split("\t")
        if len(columns) > 1 and columns[1] != "capacity":
            many = 4 if len(columns) == 7 else 3
            rows[" ".join(columns[:many])] = " ".join(columns[many:])
    return rows


def find_faults(found, recorded):
    """Returns a line for each row that is not as it was recorded."""
    names = [*found, *(it for it in recorded if it not in found)]
    return [
        f"{it}: {found.get(it, 'no row')}, and {recorded.get(it, 'no row')} was recorded"
        for it in names
        if found.get(it) != recorded.get(it)
    ]


def read_settings(rows):
    """Yields the corpus, the capacity, the limit and the delay of each setting in these rows, its bytes, and the bound."""
    for of, figures in rows.items():
        if len(figures.split()) == 3:
            yield of.rsplit(" ", 3), *map(int, figures.split()[:2])


def compare_rules(found, recorded):
    """Returns a line for each capacity and limit: what a rule writes beside the bound, and beside what is recorded."""
    before = {tuple(of): count for of, count, _ in read_settings(recorded)}
    groups = {}
    for of, count, bound in read_settings(found):
        ratio = count / before[tuple(of)]
        groups.setdefault((of[1], of[2]), []).append((ratio, count / bound, f"{of[0]}, {of[3]} late"))
    lines = []
    for (capacity, limit), settings in groups.items():
        over, of_bound = (sum(it[column] for it in settings) / len(settings) for column in (0, 1))
        worst, _, where = max(settings)
        means = f"{of_bound:.3f} of the bound, {over:.3f} of the recorded bytes"
        lines.append(f"at {capacity}, {limit} blocked: {means}, at most {worst:.3f} ({where})")
    return lines


def main(words):
    if len(words) > 1 or words[:1] in (["-h"], ["--help"]):
        sys.exit(__doc__)
    is_recorded, is_tried = words == ["--record"], words == ["--rule"]
    with tempfile.TemporaryDirectory(prefix="h3-qpack-bound-") as name:
        room = Path(name)
        is_of_dist = is_recorded or is_tried or not words
        archive = make_archive(room) if is_of_dist else Path(words[0]).resolve()
        text = play(archive, room, *(["--rule"] if is_tried else []))
    found = read_rows(text)
    if is_tried:
        for line in compare_rules(found, read_rows(TABLE.read_text(encoding="utf-8"))):
            print(f"bound: {line}")
        return 0
    if is_recorded:
        head = f"# Written by bench/bound.py --record on {datetime.date.today()}.\n"
        TABLE.write_text(head + text, encoding="utf-8")
    faults = find_faults(found, read_rows(TABLE.read_text(encoding="utf-8")))
    for line in faults[:MOST_ROWS]:
        print(f"bound: FAULT: {line}")
    for of, figures in found.items():
        if of.startswith("all "):
            print("bound: at {1}, {2} blocked: {0} of the bound".format(figures, *of.split()[1:]))
    print(f"bound: {len(found)} rows compared with those of {TABLE.name}, {len(faults)} faults")
    return 1 if faults else 0


if __name__ == "__main__":
    sys.exit(main(sys.argv[1:]))
