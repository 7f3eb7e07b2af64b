#!/usr/bin/env python3
"""Reckons how long a stranger who opens README takes to the answer of each of some questions: at most 30 seconds.

    tests/questions.py [--list]

A question has a way: parts of documents, each with the heading that it is below and its first and last words. Each part
but the last has a link to the document of the next, at that heading or at the document's top. A reader reads four words a
second from the first word of a part to its last, code too. A heading that is passed takes three seconds, and a paragraph,
an item, a row or a block that is passed below the last heading takes one. With --list each question is printed with its
seconds. The exit status is 1 if an answer takes longer, if words, a heading or a link are not there, or if one of the
faults that are planted here is not found.
"""
import re
import sys
from pathlib import Path
from typing import NamedTuple

from links import find_headings

TOP = Path(__file__).resolve().parent.parent
MOST_SECONDS = 30
WORDS_A_SECOND = 4
OF_HEADING, OF_PARAGRAPH = 3, 1  # seconds to pass one
HEADING = re.compile(r"^#+ (.*)$", re.M)
# What is passed as one: an item, a row, or lines up to an empty one. The line below the head of a table is none.
PARAGRAPH = re.compile(r"^(?:- |\d+\. ).*|^\|(?!-).*|^(?![-|#\n]|\d+\. ).+(?:\n(?![-|#\n]|\d+\. ).+)*", re.M)
LINK = re.compile(r"\]\(([^)\s#]*)(?:#([^)\s]*))?\)")
FENCE = re.compile(r"^```.*?^```", re.M | re.S)


class Part(NamedTuple):
    """What is read of a document: below which heading, or the top if that is empty, from which words to which."""

    document: str
    heading: str
    first: str
    last: str


QUESTIONS = {
    "what is it": [Part("README.md", "", "**[QPACK]", "has the dynamic table.")],
    "how do I run it": [Part("README.md", "", "Try it in a clone", "those that need none")],
    "does it run here": [Part("README.md", "Is it for you?", "| runs on |", "a C compiler |")],
    "how do I use it from C": [
        Part("README.md", "Use it", "| C or C++ |", "[each call of a connection](docs/USING.md#a-connection-in-c)"),
        Part("docs/USING.md", "A connection in C", "h3_qpack_encoder_settings theirs;", "encoder_new(&encoder, &theirs)"),
    ],
    "how do I use it from Rust": [
        Part("README.md", "Use it", "| Rust |", "[a connection](docs/USING.md#a-connection-in-rust)"),
        Part("docs/USING.md", "A connection in Rust", "use h3_qpack::connection", "&mut section)?"),
    ],
    "how do I use it from Go or Python": [
        Part("README.md", "Use it", "| Go, Python |", "[Go](bindings/README.md#go)"),
        Part("bindings/README.md", "Go", "The module", "go build"),
    ],
    "how do I use it from Rattle": [
        Part("README.md", "Use it", "| Rattle |", "[a connection](docs/USING.md#a-connection-in-rattle)"),
        Part("docs/USING.md", "A connection in Rattle", "Copy the folders", "is a whole program."),
    ],
    "what does it cost": [Part("README.md", "", "**It compresses well.**", "153 KB at most")],
    "what is proved": [Part("README.md", "Why believe it", "| `h3_qpack` |", "(docs/PROVED.md#the-headline) |")],
    "what is not proved": [Part("README.md", "Why believe it", "**Not proved:**", "the C library.")],
    "what do I get wrong": [
        Part("README.md", "What you have to do", "USING has", "(docs/USING.md#if-something-is-wrong)"),
        Part("docs/USING.md", "If something is wrong", "What you see", "or not sent."),
    ],
    "what is on the wire": [Part("README.md", "Debug a connection", "`./qpk check capture.pcapng", "[pages](docs/QPK.md)")],
    "why was it rejected": [
        Part("README.md", "Debug a connection", "`./qpk check capture.pcapng", "(docs/CAUSES.md)"),
        Part("docs/CAUSES.md", "0x0201 QPACK_ENCODER_STREAM_ERROR", "An instruction", "| index 1 is past the table"),
    ],
    "how do I change it": [
        Part("README.md", "Is it for you?", "The code is in Rattle", "(CONTRIBUTING.md#a-first-change-end-to-end)"),
        Part("CONTRIBUTING.md", "A first change, end to end", "These steps", "Go on meanwhile."),
    ],
}


def read_documents():
    """Returns the texts of all documents that are on a way, by their names."""
    names = {part.document for way in QUESTIONS.values() for part in way}
    return {name: (TOP / name).read_text(encoding="utf-8") for name in sorted(names)}


def anchor_of(title):
    """Returns what links call a heading."""
    return next(iter(find_headings(f"# {title}")))


def headings_of(text):
    """Returns the headings of a document, with their places."""
    return list(HEADING.finditer(FENCE.sub(lambda found: re.sub(r"[^\n]", " ", found[0]), text)))


def count_words(text):
    """Returns how many words a text has, without the targets of its links."""
    return len([it for it in LINK.sub("]", text).split() if re.search(r"\w", it)])


def place_of(text, part):
    """Returns where the heading of a part, or the top, is in the text of its document, and where the part begins and ends.
    Raises LookupError if one of them is not there."""
    heading = next((it.start() for it in headings_of(text) if it[1] == part.heading), None) if part.heading else 0
    if heading is None:
        raise LookupError(f"{part.document} has no heading {part.heading!r}")
    first = text.find(part.first, heading)
    last = text.find(part.last, first)
    if first < 0 or last < 0:
        lacking = part.first if first < 0 else part.last
        raise LookupError(f"{part.document} has no {lacking!r} below {part.heading or 'its top'!r}")
    return heading, first, last + len(part.last)


def seconds_of(text, part, is_at_heading):
    """Returns how long a part takes: to pass what is before it, from its heading on if a link leads there, and to read."""
    heading, first, end = place_of(text, part)
    begins = [it.start() for it in headings_of(text)]
    passed = [it for it in begins if (heading if is_at_heading else 0) <= it < first and it != heading]
    paragraphs = PARAGRAPH.findall(text[max([it for it in begins if it < first], default=0) : first])
    return len(passed) * OF_HEADING + len(paragraphs) * OF_PARAGRAPH + count_words(text[first:end]) / WORDS_A_SECOND


def link_to(text, part, target):
    """Returns the heading that a link of a part leads to in the document of the next, or None if it has no such link."""
    _, first, end = place_of(text, part)
    here = (TOP / part.document).parent
    found = [heading for path, heading in LINK.findall(text[first:end]) if (here / path).resolve() == TOP / target.document]
    return next((it for it in found if it in ("", anchor_of(target.heading))), None)


def reckon(texts, way):
    """Returns how many seconds a way takes. Raises LookupError if something on it is not there."""
    total, is_at_heading = 0, False
    for at, part in enumerate(way):
        total += seconds_of(texts[part.document], part, is_at_heading)
        if at + 1 < len(way):
            heading = link_to(texts[part.document], part, way[at + 1])
            if heading is None:
                raise LookupError(f"{part.document} has no link to {way[at + 1].document} there")
            is_at_heading = bool(heading)
    return total


def find_faults(texts):
    """Yields what is wrong with the answer of each question."""
    for question, way in QUESTIONS.items():
        try:
            seconds = reckon(texts, way)
        except LookupError as why:
            yield f"{question}: {why}"
            continue
        if seconds > MOST_SECONDS:
            yield f"{question}: the answer takes {seconds:.0f} seconds, and may take {MOST_SECONDS}"


def plant():
    """Yields the faults that are planted: a name, the question that it is about, and the texts with it."""
    texts = read_documents()
    readme = texts["README.md"]
    longer = readme.replace("has the dynamic table.", f"{'word ' * 150}has the dynamic table.", 1)
    yield "150 words more", "what is it", {**texts, "README.md": longer}
    headings = readme.replace("## Why believe it", "## More\n" * 8 + "\n## Why believe it", 1)
    yield "eight headings more", "what is not proved", {**texts, "README.md": headings}
    unlinked = readme.replace("(docs/USING.md#a-connection-in-rattle)", "(docs/USING.md#systems)")
    yield "a link to another heading", "how do I use it from Rattle", {**texts, "README.md": unlinked}
    renamed = texts["docs/USING.md"].replace("## If something is wrong", "## Symptoms")
    yield "another heading", "what do I get wrong", {**texts, "docs/USING.md": renamed}


def main(words):
    texts = read_documents()
    faults = list(find_faults(texts))
    for name, question, planted in plant():
        if not any(it.startswith(f"{question}: ") for it in find_faults(planted)):
            faults.append(f"the planted fault is not found: {name}")
    for it in faults:
        print(it)
    if words == ["--list"]:
        for question, way in QUESTIONS.items():
            print(f"{reckon(texts, way):4.0f} s  {question}")
    print(f"questions: {len(faults)} faults, in {len(QUESTIONS)} questions and {len(list(plant()))} planted faults")
    return 1 if faults else 0


if __name__ == "__main__":
    sys.exit(main(sys.argv[1:]))
