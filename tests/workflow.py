#!/usr/bin/env python3
"""Holds the commands of .github/workflows/tests.yml to the repository: each script that it runs is there and can be run.

    tests/workflow.py

A command that calls a script is taken apart at blanks, and may begin with sudo. The exit status is 1 if a script is not
there, or the file has no command.
"""
import os
import re
import sys
from pathlib import Path

TOP = Path(__file__).resolve().parent.parent
FILE = TOP / ".github" / "workflows" / "tests.yml"
COMMAND = re.compile(r"^ +- run: (.*)$", re.M)
# Programs of the machine that a command may begin with.
PROGRAMS = {"make", "apt-get"}


def find_faults():
    """Yields what is wrong, a line each."""
    commands = COMMAND.findall(FILE.read_text(encoding="utf-8"))
    if not commands:
        yield f"{FILE.name} has no command"
    for command in commands:
        program = next(it for it in command.split() if it != "sudo")
        if program not in PROGRAMS and not os.access(TOP / program, os.X_OK):
            yield f"{FILE.name}: {program} is not there, or can't be run"


def main():
    faults = list(find_faults())
    for it in faults:
        print(it)
    print(f"workflow: {len(faults)} faults")
    return 1 if faults else 0


if __name__ == "__main__":
    sys.exit(main())
