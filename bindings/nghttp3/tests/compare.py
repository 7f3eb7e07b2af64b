#!/usr/bin/env python3
"""Compares what nghttp3's program of tests printed with the failures that are expected.

    compare.py PRINTED FAILURES

FAILURES has a line for each assert that fails, with its test and why it does. Any other failure is a fault, and so is
one that no longer comes. The last line is the counts of tests and asserts.
"""
import csv
import re
import sys
from collections import Counter
from pathlib import Path

TEST = re.compile(r"^  Test: (\S+) \.\.\.")
ASSERT = re.compile(r"^ +\d+\. \S+:\d+  - (.*)$")
COUNTS = re.compile(r"^ +(tests|asserts) +\d+ +(\d+) +(\d+) +(\d+)")


def read_printed(text):
    """Returns the asserts that failed, each with its test, and how many tests and asserts ran, passed and failed."""
    failures, counts, test = Counter(), {}, None
    for line in text.splitlines():
        if found := TEST.match(line):
            test = found[1]
        elif found := ASSERT.match(line):
            failures[test, found[1]] += 1
        elif found := COUNTS.match(line):
            counts[found[1]] = tuple(map(int, found.groups()[1:]))
    return failures, counts


def read_expected(path):
    """Returns the asserts that are expected to fail. Each must say why."""
    with open(path, encoding="utf-8", newline="") as file:
        rows = list(csv.DictReader(file, delimiter="\t", quoting=csv.QUOTE_NONE))
    for row in rows:
        if not row["why"]:
            sys.exit(f"{path}: {row['test']}: nothing says why it fails")
    return Counter((row["test"], row["assert"]) for row in rows)


def main(printed, failures):
    found, counts = read_printed(Path(printed).read_text(encoding="utf-8"))
    expected = read_expected(failures)
    if sorted(counts) != ["asserts", "tests"]:
        sys.exit("the tests did not end")
    for test, text in found - expected:
        print(f"fails, and is not expected to: {test}: {text}")
    for test, text in expected - found:
        print(f"no longer fails: {test}: {text}: remove its line from {failures}")
    if counts["asserts"][2] != sum(found.values()):
        sys.exit(f"{counts['asserts'][2]} asserts failed, and {sum(found.values())} were printed")
    for name, (ran, passed, _) in sorted(counts.items(), reverse=True):
        print(f"{passed} of {ran} {name} passed")
    return found != expected


if __name__ == "__main__":
    sys.exit(main(*sys.argv[1:]))
