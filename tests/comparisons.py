#!/usr/bin/env python3
"""Reads off the code that the dynamic table counts each comparison of a sought field with an entry.

    tests/comparisons.py

A contract bounds what `Steps` counts. A comparison that goes round the count breaks no contract, so three rules are read
off the source of qpack_table:

1. `raise` is private to its file, and `compare_entry` alone calls it, as its first statement.
2. The functions of READS alone read the bytes of an entry.
3. Of these, `compare_entry` alone compares.

It prints each breach. Then it plants a breach of each rule in a copy, and each must be found. The exit status is 1 if there
is a breach, or if a planted one is not found.
"""
import re
import shutil
import sys
import tempfile
from pathlib import Path

SOURCE = Path(__file__).resolve().parent.parent / "crates" / "qpack_table" / "src"
COMPARES = "compare_entry"
# The functions that read an entry's bytes, and what for.
READS = {
    COMPARES: "compares, and counts",
    "as_line": "of an entry: lends its bytes",
    "field": "of an entry: lends its field",
    "field_at": "returns a field",
    "enter": "seeks the place of the new entry",
    "leave": "seeks the place of the oldest entry",
    "replace_oldest": "makes the key of an entry that is not in yet",
    "insert": "reads its argument",
    "find": "reads its argument",
    "newest_equal": "reads its argument",
}
FUNCTION = re.compile(r"^ *(?:pub(?:\([^)]*\))? )?(?:const )?fn (\w+)", re.M)
CLAUSE = re.compile(r"^\s*(?:requires|ensures)\b.*?(?=^\s*(?:requires|ensures|\{)|\Z)", re.M | re.S)
APART = re.compile(r"^\s*//.*$|^(?:ghost use|use|pub use) .*$", re.M)
RAISES = re.compile(r"\.raise\(|\.count\s*\+?=[^=]")
READS_BYTES = re.compile(r"\.as_line\(\)|\.field\(\)|\.field\.(?:name|value)\b")
COMPARISON = re.compile(r"[^=!<>]==[^=]|!=|\.(?:cmp|partial_cmp|eq|ne|starts_with|ends_with|contains)\(|\bsame\(")
# A breach of each rule: its file, a text that occurs in it once, what takes its place, and a word of what must be found.
PLANTED = [
    ("dynamic/comparing.rt", "    fn raise(&mut self)", "    pub(super) fn raise(&mut self)", "private"),
    (
        "dynamic/comparing.rt",
        "    steps.raise();\n    let line = entry.as_line();",
        "    let line = entry.as_line();",
        "no function",
    ),
    ("dynamic/entries.rt", "        self.field.mem_size()", "        self.field().mem_size()", "mem_size reads"),
    (
        "dynamic/sorted.rt",
        "        let newest = entries[entries.len() - 1].as_line();",
        "        let newest = entries[entries.len() - 1].as_line();\n        if newest.name == entries[0].as_line().name {}",
        "enter compares",
    ),
]


def read_functions(source):
    """Yields the place, the name, the head and the body of each function of a folder's sources."""
    for path in sorted(source.rglob("*.rt")):
        text = APART.sub("", path.read_text(encoding="utf-8"))
        found = list(FUNCTION.finditer(text))
        for this, after in zip(found, [*found[1:], None]):
            whole = CLAUSE.sub("", text[this.end() : after.start() if after else len(text)])
            _, brace, body = whole.partition("{")
            yield f"{path.relative_to(source)}: {this[1]}", this[1], this[0], brace + body


def find_breaches(source):
    """Yields what breaks a rule."""
    raises = []
    for place, name, head, body in read_functions(source):
        if name == "raise":
            if "pub" in head:
                yield f"{place} is not private"
        elif RAISES.search(body):
            raises.append(place)
            if name != COMPARES or not re.match(r"\{\s*steps\.raise\(\);", body):
                yield f"{place} raises the count"
        if READS_BYTES.search(body):
            if name not in READS:
                yield f"{place} reads an entry's bytes"
            if name != COMPARES and COMPARISON.search(body):
                yield f"{place} compares what it reads"
    if not raises:
        yield "no function raises the count"


def find_unseen(source):
    """Yields each planted breach that is not found, or that can't be planted."""
    for number, (file, old, new, word) in enumerate(PLANTED):
        with tempfile.TemporaryDirectory() as room:
            copy = Path(room) / "src"
            shutil.copytree(source, copy)
            path = copy / file
            text = path.read_text(encoding="utf-8")
            if text.count(old) != 1:
                yield f"planted breach {number}: its text is {text.count(old)} times in {file}, and not once"
                continue
            path.write_text(text.replace(old, new), encoding="utf-8")
            if not any(word in it for it in find_breaches(copy)):
                yield f"planted breach {number} of {file} is not found"


def main():
    faults = [*find_breaches(SOURCE), *find_unseen(SOURCE)]
    for it in faults:
        print(f"tests/comparisons.py: {it}")
    if not faults:
        print(f"tests/comparisons.py: each comparison is counted; {len(PLANTED)} planted breaches are found")
    return 1 if faults else 0


if __name__ == "__main__":
    sys.exit(main())
