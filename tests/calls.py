#!/usr/bin/env python3
"""Writes docs/CALLS.md from the doc comments and the contracts of the public calls in Rattle.

    tests/calls.py             writes it
    tests/calls.py --check     compares it with what would be written; the exit status is 1 if it differs

For each module of the crates below it has the errors and the other enums, with the comment of each variant, and the calls,
with their comments and the definitions that their contracts cite. The text at its front is tests/calls.md. At its end are the
public names that h3 does not have, of docs/h3-lacks.tsv. The exit status is 2 if a public call has no comment, or such a name
is not there.
"""
import re
import sys

from definitions import CRATES, TOP, cell, plain, read_crates, table
from pages import check_page

FRONT = TOP / "tests" / "calls.md"
PAGE = TOP / "docs" / "CALLS.md"
NAMES = TOP / "docs" / "h3-lacks.tsv"
# The crates below h3's names, whose public names are h3's or in that file.
OF_H3 = ("h3_qpack", "qpack_codec", "qpack_table", "qpack_wire", "qpack_base", "qpack_rules", "qpack_spec")
# The crates with calls, those that a user begins with first. The header is over the calls of h3_qpack_c.
OF_CALLS = [
    "qpack_encoding",
    "qpack_decoding",
    "qpack_shared",
    "qpack_connection",
    "h3_qpack",
    "qpack_codec",
    "qpack_table",
    "qpack_wire",
    "qpack_base",
    "h3_qpack_c",
    "qpk_show",
    "qpk_view",
    "qpk_check",
    "qpk_qif",
    "qpk",
]
# What a type, a trait or a call begins with, at the start of a line or in the block of a type.
BLOCK = re.compile(r"^(?:impl(?:<.*?>)? (?:[\w<>', ]+ for )?|pub trait )(\w+)")
CALL = re.compile(r"^( *)(pub )?(?:const |extern \"C\" )?fn (\w+)")
ENUM = re.compile(r"^pub enum (\w+)")
VARIANT = re.compile(r"^    (\w+) ?(?:[({,].*)?$")
NAME = re.compile(r"\b[A-Z]\w+|\b[a-z]+_[a-z_]+\b")


def paragraphs(comment):
    """Returns a doc comment as one text: its paragraphs, and what it says of errors."""
    text = "\n".join(it.strip()[3:].strip() for it in comment)
    parts = [" ".join(it.split()) for it in re.split(r"\n\s*\n", text) if it.strip()]
    said = re.sub(r"# Errors (?=\S)", "**Errors:** ", " ".join(parts))
    return re.sub(r"\[(`[^`]*`)\](?:\([^)]*\))?", r"\1", said)


class Enum:
    """An enum: its name, its comment, and its variants with theirs."""

    def __init__(self, name, comment):
        self.name, self.comment, self.variants = name, comment, []


class Call:
    """A call: its name after that of its type, its comment, and the definitions that its contract cites."""

    def __init__(self, name, comment, contract, known):
        self.name, self.comment = name, comment
        cited = dict.fromkeys(it for it in NAME.findall(contract) if it in known)
        self.cited = [it for it in cited if it[0].isupper()] or list(cited)


class Module:
    """A module: its first comment, its enums and its calls, in the order of its file."""

    def __init__(self, path, known):
        self.lines = path.read_text(encoding="utf-8").splitlines()
        self.enums, self.calls, self.known = [], [], known
        first = re.match(r"(?://!.*\n)*", "\n".join(self.lines) + "\n")[0]
        self.comment = plain(first, "//!")
        self.read()

    def read(self):
        """Reads the file, line by line."""
        comment, holder, is_trait, enum = [], "", False, None
        for at, line in enumerate(self.lines):
            block, call = BLOCK.match(line), CALL.match(line)
            if line.strip().startswith("///"):
                comment.append(line)
                continue
            if block:
                holder, is_trait = block[1], line.startswith("pub trait")
            elif line == "}":
                holder, is_trait, enum = "", False, None
            elif ENUM.match(line):
                enum = Enum(ENUM.match(line)[1], paragraphs(comment))
                self.enums.append(enum)
            elif enum and comment and VARIANT.match(line):
                enum.variants.append((VARIANT.match(line)[1], paragraphs(comment)))
            elif call and (call[2] or is_trait) and (holder or not call[1]):
                name = f"{holder}::{call[3]}" if holder and call[1] else call[3]
                self.calls.append(Call(name, paragraphs(comment), self.contract(at), self.known))
            if not line.strip().startswith("#["):
                comment = []

    def contract(self, at):
        """Returns what is between the head of the function at a line and its brace, without comments."""
        head = []
        for line in self.lines[at:]:
            if line.strip() == "{" or line.rstrip().endswith(("{}", " {")) and "ensures" not in line or line.endswith(";"):
                break
            if not line.strip().startswith("//"):
                head.append(line)
        text = "\n".join(head)
        return text[text.find("ensures") :] if "ensures" in text else ""


def modules_of(crate, known):
    """Yields the name and the module of each file of a crate, that of its root first."""
    source = CRATES / crate / "src"
    for path in sorted(source.rglob("*.rt"), key=lambda it: (it.name not in ("lib.rt", "main.rt"), it)):
        inside = path.relative_to(source).with_suffix("")
        yield "" if path.parent == source and path.stem == "lib" else "::".join(inside.parts), Module(path, known)


def write_module(name, module):
    """Returns the lines on a module."""
    lines = [f"### `{name}`", "", *([module.comment, ""] if module.comment else [])] if name else []
    for enum in module.enums:
        rows = [(f"`{variant}`", cell(said)) for variant, said in enum.variants]
        lines += [f"**`{enum.name}`:** {enum.comment}", "", *table(("variant", "when"), rows), ""] if rows else []
    rows = [(f"`{it.name}`", cell(it.comment), ", ".join(f"`{name}`" for name in it.cited)) for it in module.calls]
    return lines + [*table(("call", "what it does", "promised by"), rows), ""] if rows else lines


def write_crate(crate, known):
    """Returns the lines on a crate."""
    root = (CRATES / crate / "src" / "lib.rt").read_text(encoding="utf-8")
    said = plain(re.match(r"(?://!.*\n)*", root)[0], "//!")
    lines = [f"## {crate}", "", said, ""]
    for name, module in modules_of(crate, known):
        is_law = name.split("::")[0] == "laws"
        if not is_law and (module.calls or any(it.variants for it in module.enums)):
            lines += write_module(name, module)
    return lines


def read_names():
    """Returns the modules with the public names that h3 does not have."""
    rows = [line.split("\t") for line in NAMES.read_text(encoding="utf-8").splitlines()[1:]]
    return [(module, names.split(", ")) for module, names in rows]


def not_declared(names):
    """Returns those of the names that no source of the crates below h3's names declares."""
    sources = (path.read_text(encoding="utf-8") for crate in OF_H3 for path in (CRATES / crate / "src").rglob("*.rt"))
    declared = set(re.findall(r"\b(?:fn|struct|enum|trait|const|type|mod|use) (?:\w+::)*(\w+)", "\n".join(sources)))
    return [it for it in names if it.split("::")[-1] not in declared]


def write_names(modules):
    """Returns the lines on the public names of modules that h3 does not have."""
    rows = [(module, ", ".join(f"`{it}`" for it in names)) for module, names in modules]
    said = "The ends, C, `qpk` or the tests use these. All else that h3 does not have is `pub(crate)`."
    return ["## Names that h3 does not have", "", said, "", *table(("module", "names"), rows), ""]


def missing(known):
    """Returns the public calls that have no comment."""
    found = ((crate, name, module) for crate in OF_CALLS for name, module in modules_of(crate, known))
    return [f"{crate}::{name}::{it.name}" for crate, name, module in found for it in module.calls if not it.comment]


def write():
    """Returns the page."""
    known = {name for crate in read_crates().values() for file in crate.files.values() for name in file.definitions}
    if missing(known):
        print("tests/calls.py: no comment at", ", ".join(missing(known)), file=sys.stderr)
        sys.exit(2)
    beyond_h3 = read_names()
    gone = not_declared([it for _, names in beyond_h3 for it in names])
    if gone:
        print("tests/calls.py: docs/h3-lacks.tsv has names that are not there:", ", ".join(gone), file=sys.stderr)
        sys.exit(2)
    lines = FRONT.read_text(encoding="utf-8").rstrip("\n").split("\n") + [""]
    for crate in OF_CALLS:
        lines += write_crate(crate, known)
    lines += write_names(beyond_h3)
    return "\n".join(lines).rstrip("\n") + "\n"


def main(words):
    page = write()
    if words == ["--check"]:
        return check_page("calls", PAGE, page)
    PAGE.write_text(page, encoding="utf-8")
    return 0


if __name__ == "__main__":
    sys.exit(main(sys.argv[1:]))
