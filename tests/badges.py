#!/usr/bin/env python3
"""Writes docs/badges/*.svg, the badges of README, from dist/SUMS, CHANGELOG.md and docs/gate-runs.tsv.

    tests/badges.py             writes them
    tests/badges.py --check     compares them with what would be written; the exit status is 1 if one differs

One says how many functions of the library are proved, on how many axioms, one which version it is, and one what the newest
run of the gate from nothing passed, with its day. The exit status is 2 if a file does not say it.
"""
import html
import re
import sys
from pathlib import Path

TOP = Path(__file__).resolve().parent.parent
FOLDER = TOP / "docs" / "badges"
SUMS, CHANGES, RUNS = TOP / "dist" / "SUMS", TOP / "CHANGELOG.md", TOP / "docs" / "gate-runs.tsv"
PROVED = re.compile(r"^x86_64-elf\.s logic=proved functions=(\d+) axioms=(\d+) ", re.M)
VERSION = re.compile(r"^version (\S+)$", re.M)
NEWEST = re.compile(r"^## (\S+)(?: \((.*)\))?$", re.M)
FROM_NOTHING = "; from nothing"
PASSED = re.compile(r"wrong edits(?:, all refused)?; (\d+) passed(?:,(?: and)? (\d+) failed)?")
# Pixels of a letter on average, at both sides of a text, and of the height.
LETTER, SIDE, HEIGHT = 6.4, 6, 20
GREY, GREEN, ORANGE = "#464646", "#2a6b1f", "#9a4b00"
SVG = "http://www.w3.org/2000/svg"
BADGE = """<svg xmlns="{svg}" width="{width}" height="{height}" role="img" aria-label="{label}: {value}">
<title>{label}: {value}</title>
<clipPath id="round"><rect width="{width}" height="{height}" rx="3"/></clipPath>
<g clip-path="url(#round)">
<rect width="{left}" height="{height}" fill="{grey}"/>
<rect x="{left}" width="{right}" height="{height}" fill="{color}"/>
</g>
<g fill="#fff" font-family="Verdana,DejaVu Sans,sans-serif" font-size="11">
<text x="{side}" y="14" textLength="{label_length}">{label}</text>
<text x="{value_at}" y="14" textLength="{value_length}">{value}</text>
</g>
</svg>
"""


def fail(why):
    """Ends the script."""
    print(f"tests/badges.py: {why}", file=sys.stderr)
    sys.exit(2)


def find(pattern, path):
    """Returns what a pattern finds in a file."""
    found = pattern.search(path.read_text(encoding="utf-8"))
    return found or fail(f"{path.relative_to(TOP)} has no {pattern.pattern}")


def of_gate():
    """Returns the day of the newest run of the gate from nothing that counts, and how much passed and failed."""
    found = None
    for line in RUNS.read_text(encoding="utf-8").splitlines():
        day, what, *rest = line.split("\t") if "\t" in line else ("", "")
        counted = PASSED.search(rest[-1]) if FROM_NOTHING in what and rest else None
        found = (day, int(counted[1]), int(counted[2] or 0)) if counted else found
    return found or fail(f"{RUNS.relative_to(TOP)} has no run{FROM_NOTHING}")


def draw(label, value, color):
    """Returns a badge: a label, and its value on a color."""
    lengths = [round(len(it) * LETTER) for it in (label, value)]
    left, right = (it + 2 * SIDE for it in lengths)
    return BADGE.format(
        svg=SVG,
        label=html.escape(label),
        value=html.escape(value),
        label_length=lengths[0],
        value_length=lengths[1],
        left=left,
        right=right,
        width=left + right,
        value_at=left + SIDE,
        height=HEIGHT,
        side=SIDE,
        grey=GREY,
        color=color,
    )


def draw_all():
    """Returns the badges by the names of their files."""
    functions, axioms = find(PROVED, SUMS).groups()
    version, state = find(NEWEST, CHANGES).groups()
    if find(VERSION, SUMS)[1] != version:
        fail(f"{SUMS.relative_to(TOP)} has another version than {CHANGES.relative_to(TOP)}, {version}")
    day, passed, failed = of_gate()
    result = f"{passed} passed, {failed} failed, {day}" if failed else f"{passed} passed, {day}"
    return {
        "proved.svg": draw("proved", f"{functions} functions, {axioms} axioms", GREEN),
        "gate.svg": draw("gate, from nothing", result, ORANGE if failed else GREEN),
        "version.svg": draw("version", f"{version}, {state}" if state else version, ORANGE if state else GREEN),
    }


def main(words):
    badges = draw_all()
    if words == ["--check"]:
        kept = {it.name: it.read_text(encoding="utf-8") for it in FOLDER.glob("*")}
        others = sorted(name for name in {*badges, *kept} if badges.get(name) != kept.get(name))
        says = f"not as tests/badges.py writes {', '.join(others)}: run it" if others else "as tests/badges.py writes them"
        print(f"badges: {len(badges)} in docs/badges, {says}")
        return 1 if others else 0
    if words:
        fail("the words are none, or --check")
    FOLDER.mkdir(exist_ok=True)
    for name, badge in badges.items():
        (FOLDER / name).write_text(badge, encoding="utf-8")
    return 0


if __name__ == "__main__":
    sys.exit(main(sys.argv[1:]))
