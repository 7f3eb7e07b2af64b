#!/usr/bin/env python3
"""Holds the rows of docs/h3-tests.tsv, and the sums of docs/H3-TESTS.md, to the cases that they name.

    tests/h3_tests.py

Each of h3's tests has a row: its name, and the file of crates/qpack_tests/data that has the case of this name, or why it
is left out. A name has one row, and its case is in that file alone, after the comment that begins h3's cases there. Each
case after such a comment has a row. The sums in the text are those of the rows. It prints each fault. The exit status is 1
if there is one.
"""
import re
import sys
from pathlib import Path

TOP = Path(__file__).resolve().parent.parent
DOCUMENT = TOP / "docs" / "H3-TESTS.md"
DATA = TOP / "crates" / "qpack_tests" / "data"
TABLE = TOP / "docs" / "h3-tests.tsv"
# How many tests of h3 0.0.8 there are, in the eleven files of the rows.
TESTS, MODULES = 123, 11
LEFT_OUT = "left out"
SUM = re.compile(r"\*\*(\d+) tests, of which (\d+) are cases and (\d+) are left out\.\*\*")
BEGINS = "; The cases from here on have the names and the values of h3's own tests"
CASE = re.compile(r"^# (.*)$", re.M)


def read_rows():
    """Returns the rows of the table: h3's file, the name of the test, the file of the case, and a remark."""
    return [tuple(it.split("\t")) for it in TABLE.read_text(encoding="utf-8").splitlines()[1:]]


def read_cases():
    """Returns the files that have a case of each name, and the names of h3's cases with the file of each."""
    files, of_h3 = {}, []
    for path in sorted(DATA.glob("*.txt")):
        text = path.read_text(encoding="utf-8")
        begins = text.find(BEGINS)
        for it in CASE.finditer(text):
            files.setdefault(it[1], []).append(path.name)
            if 0 <= begins < it.start():
                of_h3.append((it[1], path.name))
    return files, of_h3


def find_faults_of_rows(rows, files, of_h3):
    """Yields what is wrong with rows, and with cases that have none."""
    names = [name for _, name, _, _ in rows]
    for name in sorted(set(names)):
        if names.count(name) > 1:
            yield f"{name} has {names.count(name)} rows"
    for _, name, file, remark in rows:
        places = files.get(name, [])
        if file == LEFT_OUT:
            if places or not remark.strip():
                yield f"{name} is left out, and has a case or no reason"
        elif places != [file]:
            yield f"{name} is a case of {file} by its row, and of {', '.join(places) or 'no file'} by the files"
        elif (name, file) not in of_h3:
            yield f"{name} is no case of h3's in {file}: its comment is missing, or is below"
    for name, file in of_h3:
        if name not in names:
            yield f"{name} is a case of h3's in {file}, and has no row"


def find_faults_of_sums(rows):
    """Yields each sum that is not that of the rows."""
    cases = sum(file != LEFT_OUT for _, _, file, _ in rows)
    stated = SUM.search(DOCUMENT.read_text(encoding="utf-8"))
    if not stated or tuple(map(int, stated.groups())) != (len(rows), cases, len(rows) - cases):
        yield f"the text does not say that {cases} of {len(rows)} tests are cases"
    if (len(rows), len({module for module, _, _, _ in rows})) != (TESTS, MODULES):
        yield f"there are {len(rows)} rows, not {TESTS} of {MODULES} files"


def main():
    rows = read_rows()
    if not rows or {len(it) for it in rows} != {4}:
        print("h3_tests: a row has another form, or there is none")
        return 1
    faults = [*find_faults_of_rows(rows, *read_cases()), *find_faults_of_sums(rows)]
    for it in faults:
        print(it)
    cases = sum(file != LEFT_OUT for _, _, file, _ in rows)
    print(f"h3_tests: {len(rows)} tests, {cases} are cases and {len(rows) - cases} left out; {len(faults)} faults")
    return 1 if faults else 0


if __name__ == "__main__":
    sys.exit(main())
