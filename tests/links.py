#!/usr/bin/env python3
"""Checks that the links between documents lead somewhere, and that each document that a source names exists.

    tests/links.py

A link to a heading has its words in lower case, joined by hyphens. Links to other hosts are not tried. It prints each
broken link with its file and line. The exit status is 1 if there is one.
"""
import re
import sys
from pathlib import Path

TOP = Path(__file__).resolve().parent.parent
DOCUMENTS = ["*.md", "docs/*.md", "docs/dev/*.md", "*/README.md", "bindings/*/README.md", "examples/*/README.md"]
SOURCES = [
    "crates/*/src/**/*.rt",
    "crates/*/specs/**/*.antt",
    "crates/*/proofs/**/*.antt",
    "c/**/*.[ch]",
    "c/**/*.sh",
    "bench/*",
    "bindings/rust/*/src/**/*.rs",
    "dist/*.[ch]",
    "tool/qpk.1",
    "dist/Makefile",
    "dist/generate",
    "dist/check",
    "dist/fits",
    "dist/lists",
    "dist/modules",
    "dist/place",
    "dist/processor",
    "dist/texts",
    "dist/tests/*.sh",
    "tool/**/*.py",
    "tool/**/*.sh",
    "tests/*.py",
    "tests/*.sh",
    ".ci/*",
    "test",
    "qpk",
]
LINK = re.compile(r"\]\(([^)#\s]*)(?:#([^)\s]*))?\)")
NAMED = re.compile(r"\bdocs/(?:dev/)?[\w-]+\.(?:md|tsv|png)\b")


def find_headings(text):
    """Returns what links call the headings of a document."""
    titles = re.findall(r"^#+ (.*)$", re.sub(r"^```.*?^```", "", text, flags=re.M | re.S), re.M)
    return {re.sub(r"[^\w\- ]", "", it.lower()).replace(" ", "-") for it in titles}


def find_broken(path):
    """Yields the place of each broken link of a file, and the link."""
    text = path.read_text(encoding="utf-8", errors="replace")
    for it in NAMED.finditer(text):
        if not (TOP / it[0]).is_file():
            yield text.count("\n", 0, it.start()) + 1, it[0]
    if path.suffix != ".md":
        return
    for it in LINK.finditer(text):
        to, heading = it.groups()
        if re.match(r"\w+:", to):
            continue
        target = (path.parent / to).resolve() if to else path
        names_heading = heading is not None and target.suffix == ".md"
        if not target.exists() or names_heading and heading not in find_headings(target.read_text(encoding="utf-8")):
            yield text.count("\n", 0, it.start()) + 1, it[0][2:-1]


def main():
    files = sorted({path for it in DOCUMENTS + SOURCES for path in TOP.glob(it) if path.is_file()})
    broken = [f"{path.relative_to(TOP)}:{line}: {link}" for path in files for line, link in find_broken(path)]
    for it in broken:
        print(it)
    print(f"links: {len(broken)} broken, in {len(files)} files")
    return 1 if broken else 0


if __name__ == "__main__":
    sys.exit(main())
