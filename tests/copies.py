#!/usr/bin/env python3
"""Checks that each file that stands twice is the same in both places, and that the repository has no links.

    tests/copies.py           checks, and names each copy that differs
    tests/copies.py --write   makes the copies again

A file stands twice where what is packaged or served has to hold it: each package, and the page of the example server.
rt ci takes no repository with symbolic links. The exit status is 1 if a copy differs or there is a link.
"""
import os
import shutil
import sys
from pathlib import Path

TOP = Path(__file__).resolve().parent.parent
# Folders that are made by building, and that of git.
MADE = {".git", "out", "build", "__pycache__"}
# The assembly of dist/ by the names that Go reads the system and the processor of.
FOR_GO = {
    "x86_64-elf.s": "library_linux_amd64.s",
    "aarch64-elf.s": "library_linux_arm64.s",
    "riscv64-elf.s": "library_linux_riscv64.s",
    "x86_64-macho.s": "library_darwin_amd64.s",
    "aarch64-macho.s": "library_darwin_arm64.s",
    "x86_64-coff.s": "library_windows_amd64.s",
}
# The files of dist/ that the library is built of, beside the assembly.
LIBRARY = ["h3_qpack.h", "h3_qpack.c", "heap.c"]
# Where copies stand, where they are copied from, and what is copied: patterns, or names with those of their copies.
COPIES = [
    ("bindings/rust/h3_qpack", ".", ["LICENSE", "rustfmt.toml"]),
    ("bindings/go", ".", ["LICENSE"]),
    ("bindings/go", "dist", LIBRARY),
    ("bindings/go", "dist", FOR_GO),
    ("bindings/go/qpack", ".", ["LICENSE"]),
    ("bindings/python", ".", ["LICENSE"]),
    ("bindings/python/native", "dist", [*LIBRARY, "h3_qpack.map", "x86_64-elf.s", "aarch64-elf.s", "riscv64-elf.s"]),
    ("bindings/python/native", "dist", ["x86_64-macho.s", "aarch64-macho.s"]),
    ("bindings/pylsqpack", ".", ["LICENSE"]),
    ("bindings/pylsqpack", "bindings/python", ["build_backend.py"]),
    ("bindings/rust/h3_qpack/generated", "dist", ["[!q]*-elf.s", "*-coff.s", "*-macho.s"]),
    ("bindings/rust/h3_qpack/tests", "c/tests", ["layout.txt"]),
    ("bindings/rust/h3_qpack/tests/data", "crates/qpack_tests/data", ["corpus.qif", "nghttp3_*.txt", "stateless_h3.tsv"]),
    ("examples/http3-server/www", "tool/qpk/report", ["element.js", "qpack.css"]),
    ("tool/qpk/tab", "examples/http3-server/www", ["qpack.js", "tables.js"]),
]


def list_copies():
    """Yields each copy with its original."""
    for folder, source, patterns in COPIES:
        for pattern in patterns:
            found = sorted((TOP / source).glob(pattern))
            if not found:
                sys.exit(f"copies: {source} has no file {pattern}")
            names = patterns if isinstance(patterns, dict) else {}
            yield from ((TOP / folder / names.get(it.name, it.name), it) for it in found)


def write_copies():
    """Makes each copy that differs again."""
    for copy, original in list_copies():
        if not is_same(copy, original):
            copy.parent.mkdir(parents=True, exist_ok=True)
            shutil.copyfile(original, copy)


def is_same(copy, original):
    """Returns whether a copy is there, and the same as its original."""
    return copy.is_file() and copy.read_bytes() == original.read_bytes()


def find_faults():
    """Yields what is wrong, a line each."""
    for copy, original in list_copies():
        if not is_same(copy, original):
            yield f"{copy.relative_to(TOP)} is not {original.relative_to(TOP)}: run tests/copies.py --write"
    for folder, folders, files in os.walk(TOP):
        folders[:] = [it for it in folders if it not in MADE]
        for it in map(Path(folder).joinpath, folders + files):
            if it.is_symlink():
                yield f"{it.relative_to(TOP)} is a symbolic link, and rt ci takes none: put the file in its place"


def main(words):
    if words not in ([], ["--write"]):
        sys.exit("usage: tests/copies.py [--write]")
    if words:
        write_copies()
    faults = list(find_faults())
    print("\n".join(faults) if faults else "copies: each is the same as its original, and there are no links")
    return 1 if faults else 0


if __name__ == "__main__":
    sys.exit(main(sys.argv[1:]))
