#!/usr/bin/env python3
"""Writes docs/API.md, and pages for man, from the comments of dist/h3_qpack.h.

    tests/api.py                 writes docs/API.md
    tests/api.py --check         compares it with what would be written, and has groff read the pages for man, if it is
                                 there; the exit status is 1 if it differs, or groff warns of a page
    tests/api.py --man FOLDER    writes a page of section 3 for each call to a folder

A part of the header begins with a comment of four hyphens. In it a block ends with an empty line: a comment, and below it
constants, a struct, or a call. A comment has parameters between bars, and rows of a status with its meaning. What comes
after the exports is left out. The exit status is 2 if a call has no comment, was not read, or is said to have a parameter
that neither it nor a struct has.
"""
import re
import shutil
import subprocess
import sys
import tempfile
from pathlib import Path

from pages import TOP, check_page

HEADER = TOP / "dist" / "h3_qpack.h"
PAGE = TOP / "docs" / "API.md"
END = "/* ---- The exports of the verified library"
PART = re.compile(r"^/\* ---- (.*?) ?\*/$", re.M | re.S)
BLOCK = re.compile(r"(?P<comment>/\*.*?\*/\n)?(?P<code>.*)", re.S)
CONSTANT = re.compile(r"^#define (H3_QPACK_\w+) (\S.*?)(?: +/\* (.*) \*/)?$", re.M)
STRUCT = re.compile(r"typedef struct \w+ \{.*?\} (h3_qpack_\w+);", re.S)
MACRO = re.compile(r"#define (h3_qpack_\w+)\(([^)]*)\) *(?:\\\n)?.*", re.S)
CALL = re.compile(r"(?:H3_QPACK_INLINE )?([\w ]+[ *])(h3_qpack_\w+)\((.*?)\);", re.S)
# A row: one or more statuses, and their meaning, which goes on in lines that are indented further.
ROW = re.compile(r"   ((?:H3_QPACK_\w+(?:, )?)+|above 0)(?:  +(.*))?$")
NAME = re.compile(r"\bh3_qpack_\w+|\bH3_QPACK_\w+|(?<![\w`])_[a-z]\w+|\bsize_t\b|\b[A-Z]+_MAX\b")
WIDTH = 100


def fail(why):
    """Ends the script."""
    print(f"tests/api.py: {why}", file=sys.stderr)
    sys.exit(2)


def lines_of(comment):
    """Returns the lines of a comment without its signs. The first of its two blanks goes too."""
    lines = comment.strip()[2:-2].rstrip().split("\n")
    return [re.sub(r"^ (?! )", "", re.sub(r"^ \*", "", it)) for it in lines]


class Text:
    """The text of a comment: paragraphs, rows of statuses, lines of code, and items of a list, in their order."""

    def __init__(self, comment):
        self.parts = []
        for line in lines_of(comment) if comment else []:
            self.take(line)

    def take(self, line):
        """Takes the next line."""
        kind, text = self.parts[-1] if self.parts else ("", "")
        row = ROW.match(line)
        if not line.strip():
            self.parts.append(("end", ""))
        elif row:
            self.parts.append(("row", (row[1], (row[2] or "").strip())))
        elif kind == "row" and line.startswith("     "):
            self.parts[-1] = (kind, (text[0], f"{text[1]} {line.strip()}".strip()))
        elif re.match(r" +- ", line):
            self.parts.append(("item", line.strip()[2:]))
        elif kind == "item" and line.startswith("  "):
            self.parts[-1] = (kind, f"{text} {line.strip()}")
        elif line.startswith("  "):
            self.parts.append(("code", line[3:]))
        elif kind == "paragraph":
            self.parts[-1] = (kind, f"{text} {line.strip()}")
        else:
            self.parts.append(("paragraph", line.strip()))

    def summary(self):
        """Returns the first sentence."""
        first = next((text for kind, text in self.parts if kind == "paragraph"), "")
        return re.split(r"(?<=\.)\s", first)[0]

    def parameters(self):
        """Returns the names between bars."""
        said = " ".join(text if isinstance(text, str) else text[1] for _, text in self.parts)
        return re.findall(r"\|(\w+)\|", said)


class Call:
    """A call, or a macro that is called as one: its prototype, and what its comment says."""

    def __init__(self, comment, name, prototype, words):
        if not comment:
            fail(f"{name} has no comment")
        self.name, self.prototype, self.text = name, prototype, Text(comment)
        self.words = words


class Struct:
    """A struct as the header has it."""

    def __init__(self, comment, name, code):
        self.name, self.code, self.text = name, code.strip(), Text(comment)


class Constants:
    """Constants that one comment is about: a name, a value and a meaning each."""

    def __init__(self, comment, rows):
        self.text, self.rows = Text(comment), rows


def write_prototype(result, name, words):
    """Returns a prototype in a line, or with a line for each parameter."""
    joined = re.sub(r"\s+", " ", words)
    line = f"{result}{name}({joined});"
    return line if len(line) <= WIDTH else "{}{}(\n    {});".format(result, name, joined.replace(", ", ",\n    "))


def read_block(text):
    """Yields what a block of a part is: constants, structs, or a call."""
    comment, code = BLOCK.match(text).groups()
    macro = MACRO.match(code.strip())
    if macro:
        versioned = [it[2] for it in CALL.finditer(code)]
        if "_longest_section" in macro[1] or versioned:
            yield Call(comment, macro[1], f"{macro[1]}({macro[2]})", macro[2])
    elif CONSTANT.search(code):
        yield Constants(comment, CONSTANT.findall(code))
    elif STRUCT.search(code):
        for at, found in enumerate(STRUCT.finditer(code)):
            yield Struct(None if at else comment, found[1], found[0])
    elif CALL.search(code):
        result, name, words = CALL.search(code).groups()
        yield Call(comment, name, write_prototype(result, name, words), words)


class Header:
    """The header: the text at its front, and its parts by their titles."""

    def __init__(self):
        text = HEADER.read_text(encoding="ascii").split(END)[0]
        front, *rest = PART.split(text)
        self.front = Text(BLOCK.match(front)["comment"])
        self.parts = [(lines_of(f"/*{title}*/"), self.read_part(body)) for title, body in zip(rest[::2], rest[1::2])]
        self.calls = [it for _, items in self.parts for it in items if isinstance(it, Call)]
        self.check_names(text)
        self.check_parameters()

    @staticmethod
    def read_part(body):
        """Returns what a part has, in its order."""
        return [it for block in re.split(r"\n\n+", body.strip("\n")) for it in read_block(block)]

    def check_names(self, text):
        """Ends the script if a call of the header is not among those that were read. Bindings alone call the versioned."""
        declared = set(re.findall(r"\b(h3_qpack_\w+)\(", re.sub(r"/\*.*?\*/", "", text, flags=re.S)))
        missed = {it for it in declared if not it.endswith("_versioned")} - {it.name for it in self.calls}
        if missed:
            fail(f"{HEADER.name} has calls that were not read: {', '.join(sorted(missed))}")

    def check_parameters(self):
        """Ends the script if a comment is about a parameter that no call of its part and no struct has."""
        known = set(re.findall(r"\w+", " ".join(it.code for _, items in self.parts for it in items if isinstance(it, Struct))))
        for call in self.calls:
            for name in call.text.parameters():
                if name not in known and not re.search(rf"\b{name}\b", call.words):
                    fail(f"the comment of {call.name} is about |{name}|, which neither it nor a struct has")


def marked(text):
    """Returns a text in Markdown: parameters and names as code."""
    text = re.sub(r"\|([\w>.-]+)\|", r"`\1`", text)
    parts = re.split(r"(`[^`]*`)", text)
    return "".join(it if it.startswith("`") else NAME.sub(lambda found: f"`{found[0]}`", it) for it in parts)


def write_text(text):
    """Returns the lines of a text in Markdown."""
    lines, before = [], "end"
    for kind, said in text.parts:
        if kind != before or kind == "paragraph":
            lines += [""] if lines and lines[-1] else []
            lines += ["| status | what it means |", "|---|---|"] if kind == "row" else []
        if kind == "row":
            lines.append(f"| {marked(said[0])} | {marked(said[1])} |")
        elif kind == "code":
            lines.append(f"    {said}")
        elif kind == "item":
            lines.append(f"- {marked(said)}")
        elif kind == "paragraph":
            lines.append(marked(said))
        before = kind
    return lines


def write_value(value):
    """Returns the value of a constant, for a cell of a table."""
    return re.sub(r"^\((.*)\)$", r"\1", value).replace("|", "\\|")


def write_item(item):
    """Returns the lines on what a part has."""
    if isinstance(item, Constants):
        rows = [f"| `{name}` | {write_value(value)} | {marked(said)} |" for name, value, said in item.rows]
        return [*write_text(item.text), "", "| constant | value | meaning |", "|---|---|---|", *rows, ""]
    code = item.code if isinstance(item, Struct) else item.prototype
    return [f"### `{item.name}`", "", "```c", *code.split("\n"), "```", "", *write_text(item.text), ""]


def write_part(title, items):
    """Returns the lines on a part. What follows the first sentence of a title, or its colon, is below it."""
    whole = " ".join(title).strip()
    head, _, rest = re.sub(r"[.:] ", "\n", whole, count=1).partition("\n")
    said = [marked(rest[0].upper() + rest[1:].rstrip(".") + "."), ""] if rest else []
    return [f"## {head}", "", *said, *(line for it in items for line in write_item(it))]


def rows_by_status(header):
    """Returns the rows of all calls by their statuses: a call, and what the status means of it, if that is said."""
    found = {}
    for call in header.calls:
        for names, said in (text for kind, text in call.text.parts if kind == "row"):
            for name in names.split(", "):
                found.setdefault(name, []).extend([(call.name, said)] if said else [])
    return found


def write_statuses(header):
    """Returns the lines on each status: the calls that return it."""
    constants = [row for _, items in header.parts for it in items if isinstance(it, Constants) for row in it.rows]
    found = rows_by_status(header)
    unknown = set(found) - {name for name, _, _ in constants} - {"above 0"}
    if unknown:
        fail(f"a row is about a status that the header does not have: {', '.join(sorted(unknown))}")
    rows = [
        f"| {'' if at else f'`{name}` {write_value(value)}'} | [`{call}`](#{call}) | {marked(said)} |"
        for name, value, _ in constants
        for at, (call, said) in enumerate(found.get(name, []))
    ]
    said = "What each status means, call by call."
    return ["## By status", "", said, "", "| status | call | what it means, and what to do |", "|---|---|---|", *rows, ""]


def write_page(header):
    """Returns the page."""
    rows = [f"| [`{it.name}`](#{it.name}) | {marked(it.text.summary())} |" for it in header.calls]
    lines = [
        "# The calls of `h3_qpack.h`",
        "",
        "This page is generated by `tests/api.py` from the comments of the header. [USING](USING.md) says where each call goes,",
        "and [ERRORS](ERRORS.md#c-and-c) what to do after each status.",
        "",
        *write_text(header.front),
        "",
        "| call | what it does |",
        "|---|---|",
        *rows,
        "",
    ]
    for title, items in header.parts:
        lines += write_part(title, items)
    lines += write_statuses(header)
    return re.sub(r"\n{3,}", "\n\n", "\n".join(lines)).rstrip("\n") + "\n"


def troff(text):
    """Returns a text for man: parameters in italics, names in bold."""
    text = text.replace("\\", "\\e").replace("-", "\\-")
    text = re.sub(r"\|([\w>.\\-]+)\|", r"\\fI\1\\fP", text)
    return re.sub(r"^([.'])", r"\\&\1", NAME.sub(lambda found: f"\\fB{found[0]}\\fP", text))


def write_man(call):
    """Returns a page for man of a call."""
    lines = [
        f'.TH {call.name} 3 "" h3_qpack',
        ".SH NAME",
        f"{call.name} \\- {troff(call.text.summary()).rstrip('.')}",
        ".SH SYNOPSIS",
        ".nf",
        "#include <h3_qpack.h>",
        ".PP",
        *troff(call.prototype).split("\n"),
        ".fi",
        ".SH DESCRIPTION",
    ]
    for kind, said in call.text.parts:
        if kind == "row":
            lines += [".TP", troff(said[0]), troff(said[1]) or "."]
        elif kind == "end":
            lines.append(".PP")
        else:
            lines.append(troff(said))
    return "\n".join([*lines, ".SH SEE ALSO", ".BR qpk (1)", ""])


def write_pages(header, folder):
    """Writes the pages for man to a folder, and returns their paths."""
    folder.mkdir(parents=True, exist_ok=True)
    paths = [folder / f"{call.name}.3" for call in header.calls]
    for path, call in zip(paths, header.calls):
        path.write_text(write_man(call), encoding="ascii")
    return paths


def read_by_groff(header):
    """Returns what groff warns of in the pages for man."""
    with tempfile.TemporaryDirectory() as room:
        pages = write_pages(header, Path(room))
        return subprocess.run(["groff", "-man", "-Tutf8", "-ww", "-z", *pages], capture_output=True, text=True).stderr


def check(header, page):
    """Returns the exit status of --check, and says what it found."""
    warned = read_by_groff(header) if shutil.which("groff") else ""
    print(warned, end="")
    status = check_page("api", PAGE, page, f"{len(header.calls)} calls")
    return 1 if warned else status


def main(words):
    header = Header()
    if words[:1] == ["--man"] and len(words) == 2:
        print(f"api: {len(write_pages(header, Path(words[1])))} pages in {words[1]}")
        return 0
    page = write_page(header)
    if words == ["--check"]:
        return check(header, page)
    if words:
        fail("the words are none, --check, or --man FOLDER")
    PAGE.write_text(page, encoding="utf-8")
    return 0


if __name__ == "__main__":
    sys.exit(main(sys.argv[1:]))
