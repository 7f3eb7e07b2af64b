#!/usr/bin/env python3
"""Writes docs/DEFINITIONS.md from the comments of the definitions.

    tests/definitions.py             writes it
    tests/definitions.py --check     compares it with what would be written; the exit status is 1 if it differs

The text at its front is tests/definitions.md, where a block of names, each CRATE.FILE.NAME, becomes a table with the
comments of these definitions. After it come the laws, the worked examples, and for each crate its files: the first
comment of each, and the names of its public definitions.
"""
import re
import sys

from pages import TOP, check_page

CRATES = TOP / "crates"
FRONT = TOP / "tests" / "definitions.md"
PAGE = TOP / "docs" / "DEFINITIONS.md"
# A comment, if there is one, and the head of a public definition.
DEFINITION = re.compile(r"((?:^-- .*\n)*)^(?:abbrev |unfoldable )?pub (?!mod |use )(?:record |data )?(\S+)", re.M)
# A law: its comment, and a function without a body.
LAW = re.compile(r"((?:^/// .*\n)+)(?:^#\[.*\n)*^pub fn (\w+)\((?:.+\n)+?\{\}$", re.M)
# The first comment of a file of worked examples.
EXAMPLES = re.compile(r"--.*(?:[Ww]orked|examples)")


def plain(comment, mark):
    """Returns the first paragraph of a comment, whose lines begin with the mark, as one line. A diagram ends it too."""
    lines = [it.strip()[len(mark) :].strip() for it in comment.splitlines()]
    end = next((at for at, it in enumerate(lines) if not it or "   " in it), len(lines))
    return re.sub(r"\[(`[^`]*`)\]\([^)]*\)", r"\1", " ".join(lines[:end]))


def cell(text):
    """Returns a text as it is written in a cell of a table."""
    return text.replace("|", "\\|")


class File:
    """A file of definitions: its crate, its name, its first comment, and its definitions with their comments."""

    def __init__(self, path):
        text = path.read_text(encoding="utf-8")
        self.crate, self.name = path.parent.parent.name, path.stem
        self.comment = plain(re.match(r"(?:--.*\n)*", text)[0], "--")
        self.definitions = {name: plain(comment, "--") for comment, name in DEFINITION.findall(text)}


class Crate:
    """A crate: its name, what it is, and its files by their subjects, in the order in which it lists them."""

    def __init__(self, name):
        self.name, folder = name, CRATES / name
        said = re.match(r"(?://!.*\n)+", (folder / "src" / "lib.rt").read_text(encoding="utf-8"))[0]
        self.comment = re.split(r"(?<=\.) ", plain(said, "//!"))[0]
        self.subjects, self.files = [("", [])], {}
        for line in (folder / "specs" / "Lib.antt").read_text(encoding="utf-8").splitlines():
            if line.startswith("--"):
                self.subjects.append((plain(line, "--"), []))
            elif found := re.match(r"pub mod (\w+)$", line):
                self.files[found[1]] = File(folder / "specs" / f"{found[1]}.antt")
                self.subjects[-1][1].append(self.files[found[1]])


def read_crates():
    """Returns the crates with definitions by their names, in the order of crates.txt."""
    names = re.findall(r"^(\w+)", (TOP / "crates.txt").read_text(), re.M)
    return {name: Crate(name) for name in names if (CRATES / name / "specs" / "Lib.antt").is_file()}


def table(heads, rows):
    """Returns the lines of a table."""
    return [f"| {' | '.join(heads)} |", "|---" * len(heads) + "|", *(f"| {' | '.join(row)} |" for row in rows)]


def write_front(crates):
    """Returns the text at the front, with the comments of the definitions that it names."""

    def rows(found):
        lines = []
        for line in found[1].split():
            crate, file, name = line.split(".")
            comments = {(it, at): text.definitions for it in crates for at, text in crates[it].files.items()}
            comment = comments.get((crate, file), {}).get(name)
            if not comment:
                sys.exit(f"tests/definitions.md: {line} has no comment, or is no public definition")
            lines.append((f"`{name}`", cell(comment), f"`{crate}`: `{file}`"))
        return "\n".join(table(("definition", "what it is", "file"), lines))

    return re.sub(r"\{\{definitions\n(.*?)\n\}\}", rows, FRONT.read_text(encoding="utf-8"), flags=re.S).rstrip("\n")


def write_laws():
    """Returns the lines on the laws of all crates."""
    rows = []
    for path in sorted(CRATES.glob("*/src/**/*.rt")):
        crate = path.relative_to(CRATES).parts[0]
        for comment, name in LAW.findall(path.read_text(encoding="utf-8")):
            module = "" if path.stem == "lib" else f"{path.stem}::"
            rows.append((cell(plain(comment, "///")), f"`{crate}::{module}{name}`"))
    return [
        "## Laws",
        "",
        "Each is proved of the definitions, as the contract of a function that does nothing.",
        "",
        *table(("what it says", "function"), rows),
    ]


def write_examples():
    """Returns the lines on the files of worked examples."""
    rows = []
    for path in sorted(CRATES.glob("*/proofs/*Rows.antt")):
        text = path.read_text(encoding="utf-8")
        if EXAMPLES.match(text):
            said = plain(re.match(r"(?:--.*\n)*", text)[0], "--")
            rows.append((cell(said), f"`{path.relative_to(CRATES).parts[0]}`: `{path.stem}`"))
    return [
        "## Worked examples",
        "",
        "Each is a definition at worked bytes or values, which the checker computes.",
        "",
        *table(("what it is of", "file, in `proofs/`"), rows),
    ]


def write_crate(crate):
    """Returns the lines on a crate."""
    lines = [f"## {crate.name}", "", crate.comment]
    for subject, files in crate.subjects:
        if not files:
            continue
        if subject:
            lines += ["", f"**{subject[0].upper()}{subject[1:]}**"]
        rows = [(f"`{it.name}`", cell(it.comment), ", ".join(f"`{cell(name)}`" for name in it.definitions)) for it in files]
        lines += ["", *table(("file", "what it is of", "public definitions"), rows)]
    return lines


def write_page():
    """Returns the page."""
    crates = read_crates()
    parts = [write_laws(), write_examples(), *map(write_crate, crates.values())]
    return "\n\n".join([write_front(crates), *("\n".join(it) for it in parts)]) + "\n"


def main(words):
    if words not in ([], ["--check"]):
        sys.exit("usage: tests/definitions.py [--check]")
    page = write_page()
    if not words:
        PAGE.write_text(page, encoding="utf-8")
        return 0
    return check_page("definitions", PAGE, page)


if __name__ == "__main__":
    sys.exit(main(sys.argv[1:]))
