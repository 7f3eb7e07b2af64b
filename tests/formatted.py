#!/usr/bin/env python3
"""Holds each file of C, JavaScript, Python, Go and Rust to the layout of its formatter.

    tests/formatted.py           names each file that is laid out otherwise
    tests/formatted.py --write   lays these out

The settings stand at the top of the repository: .clang-format, pyproject.toml and rustfmt.toml. Other versions of
clang-format and of black lay out otherwise, so only those of ACCEPTED are used. A language whose formatter is not there, or
of another version, is not shown, and counts neither as passed nor as failed. First each formatter is given a line that it
must find. The exit status is 1 if a file is laid out otherwise, or a formatter fails.
"""
import os
import re
import shutil
import subprocess
import sys
from dataclasses import dataclass
from pathlib import Path

from copies import MADE  # tests/copies.py

TOP = Path(__file__).resolve().parent.parent
SCRIPT = re.compile(rb"#!.*\bpython3?\s")
# The versions that lay out as the files are: those of Debian 12.
ACCEPTED = {"clang-format": "14", "black": "23"}
# Where Debian installs programs, if another stands before it in PATH.
DEBIAN = "/usr/bin"
EDITION = ["--edition", "2021"]
SETTINGS = ["--quiet", "--config", "pyproject.toml"]


@dataclass
class Formatter:
    """A formatter: its language, the program, the words for files and those for what is typed, and a line that it changes."""

    language: str
    program: str
    suffixes: tuple
    check: list
    write: list
    typed: list
    planted: str

    def find(self):
        """Returns the program, and why it can't be used."""
        accepted = ACCEPTED.get(self.program, "")
        places = [(f"{self.program}-{accepted}", None), (self.program, None), (self.program, DEBIAN)]
        found = [it for it in (shutil.which(name, path=path) for name, path in places) if it]
        if not found:
            return None, f"without {self.program} {accepted}".rstrip()
        versions = {it: major_version(it) for it in found} if accepted else {}
        usable = [it for it in found if versions.get(it, "") == accepted]
        if not usable:
            return None, f"with {self.program} {versions[found[0]]}, which lays out otherwise than {accepted}"
        return usable[0], None

    def is_of(self, path):
        """Returns whether it lays out a file."""
        return path.suffix in self.suffixes or not path.suffix and ".py" in self.suffixes and is_script(path)

    def look(self, program, words, typed=None):
        """Returns what it says of files, or of what is typed, that is laid out otherwise, or nothing."""
        status, said = run([program, *self.check, *words], typed)
        return said if said or not status else f"{self.program} ended with status {status}\n"


FORMATTERS = [
    Formatter("C", "clang-format", (".c", ".h"), ["--dry-run", "-Werror"], ["-i"], ["--assume-filename=typed.c"], "int  a;\n"),
    Formatter(
        "JavaScript", "clang-format", (".js",), ["--dry-run", "-Werror"], ["-i"], ["--assume-filename=typed.js"], "a  = 1;\n"
    ),
    Formatter("Python", "black", (".py",), [*SETTINGS, "--diff"], SETTINGS, ["-"], "a  = 1\n"),
    Formatter("Go", "gofmt", (".go",), ["-l"], ["-w"], [], "package  a\n"),
    Formatter("Rust", "rustfmt", (".rs",), [*EDITION, "--color=never", "--check"], EDITION, [], "fn  a() {}\n"),
]


def run(command, typed=None):
    """Runs a command at the top, and returns its status and all that it prints."""
    pipes = {"stdout": subprocess.PIPE, "stderr": subprocess.STDOUT}
    ran = subprocess.run(command, cwd=TOP, input=(typed or "").encode(), check=False, **pipes)
    return ran.returncode, ran.stdout.decode("utf-8", "replace")


def major_version(program):
    """Returns the first part of the version of a program."""
    found = re.search(r"\d+", run([program, "--version"])[1])
    return found[0] if found else "unknown"


def is_script(path):
    """Returns whether a file begins as a script of Python does."""
    with path.open("rb") as file:
        return SCRIPT.match(file.readline()) is not None


def list_files():
    """Yields the files of the repository by their paths from its top, without those that are built."""
    for folder, folders, files in os.walk(TOP):
        folders[:] = sorted(it for it in folders if it not in {*MADE, ".venv"})
        yield from (Path(folder, it).relative_to(TOP) for it in sorted(files))


def check(formatter, program, files):
    """Prints each file that is laid out otherwise. Returns whether none is, and the planted line was found."""
    if not formatter.look(program, formatter.typed, formatter.planted):
        print(f"formatted: {formatter.program} finds nothing in {formatter.language} that is laid out otherwise")
        return False
    said = formatter.look(program, files)
    print(said, end="")
    return not said


def write(formatter, program, files):
    """Lays files out. Returns whether that could be done."""
    status, said = run([program, *formatter.write, *files])
    print(said, end="")
    return status == 0


def main(words):
    if words not in ([], ["--write"]):
        sys.exit("usage: tests/formatted.py [--write]")
    files, count, failed = list(list_files()), 0, []
    for it in FORMATTERS:
        program, lacking = it.find()
        if lacking:
            print(f"not shown: the layout of {it.language}, {lacking}")
            continue
        own = [path for path in files if it.is_of(path)]
        if not (write if words else check)(it, program, own):
            failed.append(it.language)
        count += len(own)
    summary = f"NOT all as the formatters of {', '.join(failed)} have them" if failed else "all as their formatters have them"
    if count:
        print(f"formatted: {count} files, {summary}")
    return 1 if failed else 0


if __name__ == "__main__":
    sys.exit(main(sys.argv[1:]))
