#!/usr/bin/env python3
"""Keeps the interface of the C library, and names each addition and each break.

    tests/interface.py           writes c/tests/interface.txt anew, and says what differs from the one before
    tests/interface.py --check   says what differs, and writes nothing

The file has a line for the version, each function and macro of dist/h3_qpack.h, each constant with its value, and each
struct with its fields as c/tests/layout.txt lays them out. What is gone or changed is a break: programs that were
compiled with the older header may fail. A new line is an addition, and so are fields at the end of settings. Once
CHANGELOG.md has released the version of the file, an addition needs a greater minor number, and a break a greater major
number; without it nothing is written. First the script holds itself to pairs of interfaces that it has in TRIALS. The
exit status is 1 if something differs and was not written, or a trial failed.
"""
import re
import sys
from pathlib import Path

TOP = Path(__file__).resolve().parent.parent
HEADER, LAYOUT, KEPT = TOP / "dist/h3_qpack.h", TOP / "c/tests/layout.txt", TOP / "c/tests/interface.txt"
COMMENT = re.compile(r"/\*.*?\*/", re.S)
FUNCTION = re.compile(r"^(?:H3_QPACK_INLINE |H3_QPACK_CALL )?(\w[\w ]*?[ *]+)(h3(?:q|_qpack)_\w+)\(([^()]*)\);", re.M)
CONSTANT = re.compile(r"^#define (H3_QPACK_[A-Z_]+) (\(?-?(?:0x)?[\da-fA-F]+\)?)$", re.M)
MACRO = re.compile(r"^#define (h3_qpack_\w+)\(([^()]*)\)", re.M)
VERSION = re.compile(r"^#define H3_QPACK_VERSION_M\w+ (\d+)$", re.M)
# Structs that a later minor version may add fields to, at the end.
GROWING = ("struct h3_qpack_encoder_settings", "struct h3_qpack_decoder_settings")
# Pairs of interfaces, and what is said of them.
TRIALS = [
    ({"f": "int ()"}, {"f": "int ()"}, [], []),
    ({}, {"f": "int ()"}, ["f: int ()"], []),
    ({"f": "int ()"}, {}, [], ["f: int () is gone"]),
    ({"f": "int ()"}, {"f": "long ()"}, [], ["f: int () is long () now"]),
    ({"struct s": "8, a 0 8"}, {"struct s": "16, a 0 8, b 8 8"}, [], ["struct s: 8, a 0 8 is 16, a 0 8, b 8 8 now"]),
    ({GROWING[0]: "8, a 0 8"}, {GROWING[0]: "16, a 0 8, b 8 8"}, [f"{GROWING[0]}: 16, a 0 8, b 8 8"], []),
    ({GROWING[0]: "8, a 0 8"}, {GROWING[0]: "16, b 0 8, a 8 8"}, [], [f"{GROWING[0]}: 8, a 0 8 is 16, b 0 8, a 8 8 now"]),
]


def read_types(parameters):
    """Returns the types of parameters, without their names."""
    found = [" ".join(it.split()) for it in parameters.split(",")]
    return ", ".join("" if it == "void" else re.sub(r" ?\b\w+$", "", it) for it in found)


def read_functions(text):
    """Yields the name and the types of each function that the header declares."""
    for result, name, parameters in FUNCTION.findall(text):
        yield name, f"{' '.join(result.split())} ({read_types(parameters)})"


def read_structs():
    """Yields each struct, with its size, and the place and the size of each field, in bytes."""
    rows = {}
    for line in LAYOUT.read_text(encoding="utf-8").splitlines():
        struct, field, at, size = line.split()
        rows.setdefault(f"struct {struct}", []).append(size if field == "-" else f"{field} {at} {size}")
    return ((struct, ", ".join(fields)) for struct, fields in rows.items())


def read_interface():
    """Returns what the sources have: each name with its text, in the order of names."""
    text = COMMENT.sub("", HEADER.read_text(encoding="utf-8"))
    text = "\n".join(it.rstrip() for it in text.splitlines())
    version = ".".join(VERSION.findall(text))
    constants = ((name, value.strip("()")) for name, value in CONSTANT.findall(text) if "VERSION" not in name)
    macros = ((name, f"macro ({parameters})") for name, parameters in MACRO.findall(text))
    found = {**dict(constants), **dict(macros), **dict(read_functions(text)), **dict(read_structs())}
    return version, dict(sorted(found.items()))


def read_kept():
    """Returns what the file has, and no version if there is none."""
    lines = KEPT.read_text(encoding="utf-8").splitlines() if KEPT.is_file() else ["version: none"]
    parts = [tuple(it.split(": ", 1)) for it in lines]
    return parts[0][1], dict(parts[1:])


def is_grown(name, old, new):
    """Whether a struct has gained fields at its end, and may."""
    return name in GROWING and new.split(", ")[1:][: old.count(", ")] == old.split(", ")[1:]


def compare(old, new):
    """Returns the additions and the breaks."""
    added = [f"{name}: {text}" for name, text in new.items() if name not in old or is_grown(name, old[name], text)]
    added = [it for it in added if old.get(it.split(": ")[0]) != it.split(": ", 1)[1]]
    broken = [f"{name}: {text} is gone" for name, text in old.items() if name not in new]
    for name, text in old.items():
        if text != new.get(name, text) and not is_grown(name, text, new[name]):
            broken.append(f"{name}: {text} is {new[name]} now")
    return added, broken


def is_released(version):
    """Whether the changelog says when a version of these two numbers was released."""
    changes = (TOP / "CHANGELOG.md").read_text(encoding="utf-8")
    return bool(re.search(rf"^## {re.escape(version)}\.\d+ \(\d{{4}}-\d\d-\d\d\)$", changes, re.M))


def is_allowed(before, now, added, broken):
    """Whether the version allows what differs."""
    if before == "none" or not is_released(before):
        return True
    old, new = (tuple(map(int, it.split("."))) for it in (before, now))
    return new[0] > old[0] or not broken and (new > old or not added)


def main():
    if sys.argv[1:] not in ([], ["--check"]):
        sys.exit("usage: tests/interface.py [--check]")
    failed = [it for it in TRIALS if compare(*it[:2]) != it[2:]]
    if failed:
        sys.exit(f"tests/interface.py: a trial failed: {failed[0]}, and it says {compare(*failed[0][:2])}")
    (before, old), (now, new) = read_kept(), read_interface()
    added, broken = compare(old, new)
    for kind, found in ("break", broken), ("addition", added):
        for it in found:
            print(f"{kind}: {it}")
    same = (before, old) == (now, new)
    print(
        f"interface: {len(new)} names; {len(broken)} breaks and {len(added)} additions since c/tests/interface.txt of {before}"
    )
    if sys.argv[1:]:
        sys.exit(None if same else "tests/interface.py: run it without --check, if this is meant")
    if not is_allowed(before, now, added, broken):
        sys.exit(
            f"tests/interface.py: {before} is released: a break needs a greater major number, an addition a greater minor one"
        )
    lines = [f"version: {now}", *(f"{name}: {text}" for name, text in new.items())]
    KEPT.write_text("\n".join(lines) + "\n", encoding="utf-8")


if __name__ == "__main__":
    main()
