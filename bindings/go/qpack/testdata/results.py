#!/usr/bin/env python3
"""Prints the tests of a run of `go test -v`, each with `passed` or `failed` before it.

    results.py PRINTED

A test that only has others is left out. Of a suite of Ginkgo its tests are printed in the place of the one that runs it.
"""
import re
import sys
from pathlib import Path

COLOUR = re.compile(r"\x1b\[[0-9;]*m")
RESULT = re.compile(r"^ *--- (PASS|FAIL): (\S+)", re.M)
RUN = re.compile(r"^Ran (\d+) of (\d+) Specs", re.M)
FAILED = re.compile(r"^\[Fail\] (.*?) *$", re.M)


def main(path):
    text = COLOUR.sub("", Path(path).read_text(encoding="utf-8"))
    if suite := RUN.search(text):
        failed = [" ".join(it.replace("[It] ", "").split()) for it in FAILED.findall(text)]
        passed = [f"test {it + 1}" for it in range(int(suite[1]) - len(failed))]
        results = [("failed", it) for it in failed] + [("passed", it) for it in passed]
    else:
        found = {name: result for result, name in RESULT.findall(text)}
        parents = {name.rsplit("/", 1)[0] for name in found if "/" in name}
        results = [("passed" if it == "PASS" else "failed", name) for name, it in found.items() if name not in parents]
    for result in results:
        print("\t".join(result))


if __name__ == "__main__":
    main(*sys.argv[1:])
