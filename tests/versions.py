#!/usr/bin/env python3
"""Holds each place that states the version to the newest of CHANGELOG.md.

    tests/versions.py

There is one version, of the library, its interface and each package. A place is a file with a pattern, which must be
there. Some places have the whole version, some its first two numbers or its first one, and some the two in one number, as
H3_QPACK_VERSION has them. No symbol of the Debian package may have a later version. It prints each other version with
its file and line. The exit status is 1 if there is one.
"""
import re
import sys
from pathlib import Path

TOP = Path(__file__).resolve().parent.parent
NEWEST = re.compile(r"^## (\d+)\.(\d+)\.(\d+)", re.M)
# Places of the whole version.
WHOLE = [
    ("README.md", r"^\| status \| ([\d.]+),"),
    ("README.md", r"h3qpack@v([\d.]+) "),
    ("bindings/README.md", r"h3qpack@v([\d.]+) "),
    ("bindings/go/qpack/go.mod", r"^require h3qpack v([\d.]+)$"),
    ("bindings/go/qpack/qpack.go", r"h3qpack@v([\d.]+) "),
    ("examples/programs/go/go.mod", r"^require h3qpack v([\d.]+)$"),
    ("bindings/python/pyproject.toml", r'^version = "([\d.]+)"'),
    ("bindings/pylsqpack/pyproject.toml", r'^version = "0\.3\.23\+h3qpack\.([\d.]+)"'),
    ("bindings/pylsqpack/pyproject.toml", r'"h3_qpack==([\d.]+)"'),
    ("bindings/rust/h3_qpack/Cargo.toml", r'^version = "([\d.]+)"'),
    ("bindings/rust/bytes/Cargo.toml", r'^version = "([\d.]+)"'),
    ("bindings/rust/quic/Cargo.toml", r'^version = "([\d.]+)"'),
    ("bindings/rust/h3_qpack/Cargo.lock", r'^name = "h3_qpack"\nversion = "([\d.]+)"'),
    ("dist/SUMS", r"^version ([\d.]+)$"),
    ("dist/debian/changelog", r"\Ah3-qpack \(([\d.]+)\)"),
    ("crates/qpk/src/usage.rt", r'VERSION: &str = "qpk ([\d.]+)\\n"'),
    ("crates/qpk/specs/Usage.antt", r'^version_line = codes "qpk ([\d.]+)\\n"'),
]
# Places of the first two numbers.
OF_INTERFACE = [
    ("bindings/go/h3qpack.go", r"This package needs version ([\d.]+)\.$"),
    ("dist/tests/users/cmake-installed/CMakeLists.txt", r"find_package\(h3_qpack ([\d.]+) "),
    ("dist/tests/users/meson-installed/meson.build", r"version: '>=([\d.]+)'"),
]
# Places of the first number, or of the second. The name of the shared library has the first: it is 0 until 1.0.
MAJOR = [
    ("dist/h3_qpack.h", r"^#define H3_QPACK_VERSION_MAJOR (\d+)$"),
    ("dist/Makefile", r"^NUMBER = (\d+)$"),
    ("dist/CMakeLists.txt", r"\bSOVERSION (\d+)$"),
    ("dist/CMakeLists.txt", r"\bRUNTIME_OUTPUT_NAME h3_qpack-(\d+)$"),
    ("dist/meson.build", r"^  soversion: '(\d+)',$"),
    ("dist/h3_qpack.map", r"^H3_QPACK_(\d+) \{$"),
    ("dist/debian/libh3-qpack0.symbols", r"^libh3_qpack\.so\.(\d+) "),
]
MINOR = [("dist/h3_qpack.h", r"^#define H3_QPACK_VERSION_MINOR (\d+)$")]
# Places of the first two numbers in one: the first times 65,536, and the second.
NUMBER = [
    ("crates/h3_qpack_c/src/lib.rt", r"^pub extern \"C\" fn h3q_version\(\) -> u32\n +ensures \{ result ≡ (\d+) \}"),
    ("c/tests/calls.c", r"H3_QPACK_VERSION == (\d+)\)"),
    ("c/tests/bindings.py", r"^VERSION = (\d+(?: << 16)?)$"),
    ("bindings/python/h3_qpack/_library.py", r"^VERSION = (\d+(?: << 16)?)$"),
]
SYMBOLS = "dist/debian/libh3-qpack0.symbols"


def find(name, pattern):
    """Yields the line and the text of each place of a pattern in a file: line 0 and no text if there is none."""
    text = (TOP / name).read_text(encoding="utf-8")
    found = list(re.finditer(pattern, text, re.M))
    for it in found:
        yield text.count("\n", 0, it.start(1)) + 1, it[1]
    if not found:
        yield 0, "no version"


def find_others(places, expected):
    """Yields what to say of each place that has another text than is expected."""
    for name, pattern in places:
        for line, text in find(name, pattern):
            if text != expected:
                yield f"{name}:{line}: has {text}, and by CHANGELOG.md it must be {expected}"


def find_other_numbers(expected):
    """Yields the same of each place of a number, which may have a shift."""
    for name, pattern in NUMBER:
        for line, text in find(name, pattern):
            number, _, shift = text.partition(" << ")
            if not number.isdigit() or int(number) << int(shift or 0) != expected:
                yield f"{name}:{line}: has {text}, and by CHANGELOG.md it must be {expected}"


def find_later_symbols(newest):
    """Yields the same of each symbol of the Debian package that has a later version."""
    for line, text in find(SYMBOLS, r"@H3_QPACK_\d+ ([\d.]+)~?$"):
        if line == 0 or [int(it) for it in text.split(".")] > newest:
            yield f"{SYMBOLS}:{line}: has {text}, and CHANGELOG.md has no later one than {'.'.join(map(str, newest))}"


def main():
    newest = NEWEST.search((TOP / "CHANGELOG.md").read_text(encoding="utf-8"))
    major, minor, patch = newest.groups()
    others = [
        *find_others(WHOLE, f"{major}.{minor}.{patch}"),
        *find_others(OF_INTERFACE, f"{major}.{minor}"),
        *find_others(MAJOR, major),
        *find_others(MINOR, minor),
        *find_other_numbers(int(major) << 16 | int(minor)),
        *find_later_symbols([int(major), int(minor), int(patch)]),
    ]
    for it in others:
        print(it)
    places = sum(map(len, (WHOLE, OF_INTERFACE, MAJOR, MINOR, NUMBER)))
    print(f"versions: {len(others)} of {places} places and the symbols have another version than {major}.{minor}.{patch}")
    return 1 if others else 0


if __name__ == "__main__":
    sys.exit(main())
