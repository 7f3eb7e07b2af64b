#!/usr/bin/env python3
"""Finds words that the texts of the repository do not use, and counts those that they use seldom.

    tests/words.py

It reads the documents, the comments of the C header, the doc comments of the Rust crate, the help of qpk, and the
comments of the sources and the definitions of all crates. Code in them is left out. It prints each forbidden word with
its file and line, the count of each watched word, and the number of words of all documents that no script writes: all of
them, and without code. Words are counted as `wc -w` does: a sign alone, as of a table or a list, is one too. In the comments
of the crates no watched words are counted. README may have a number of lines and words, and all these documents a number of
words, with code. The exit status is 1 if a forbidden word was found, or there are more.
"""
import re
import sys
from pathlib import Path

TOP = Path(__file__).resolve().parent.parent
# Forbidden words, each with what to write in its place. A group of a pattern is one of several words.
FORBIDDEN = {
    r"(?:is|are|be|been) told": "returns, reports, prints",
    r"tells us": "shows, says",
    r"wants? of (?:memory|room)": "out of memory, no room",
    r"for want of": "without",
    r"(?:lets|is let|are let) be": "leaves, does nothing, not",
    r"so many": "that many",
    r"be it": "even if, or",
    r"anew": "again",
    r"for who": "for anyone who",
    r"(?<!anyone\s)who debugs": "anyone who debugs",
    r"(?:be|is|are) had by": "returned by, available from",
    r"as it stands": "as it is",
}
# What is rejected.
INPUT = r"(?:section|line|instruction|input|prefix|frame|file|message|stream|block|word|event)s?"
# The same in the documents and the manual page alone: a decoder or a program rejects input, a call fails, and memory or a
# connection is refused.
FORBIDDEN_IN_DOCUMENTS = {
    r"(?:decoder|encoder|end|reader|front|call)s? (?:also )?refuses?": "rejects input, or fails",
    r"refus(?:es?|ed|ing) (?:(?:an?|the|this|that|each|any|such) )?(?:" + INPUT + r"|calls?)": "reject, rejected, failed",
    r"(?:" + INPUT + r"|calls?) (?:that )?(?:is|are|was|were) refused": "is rejected, are rejected, failed",
}
# The same, except in texts that are about the calls of h3's names, which call a section so, or about memory.
FORBIDDEN_BUT_OF_H3 = {
    r"(?:an?|the|each|its|no|encoded|header|field) blocks?(?! of)": "section",
}
OF_H3 = (
    "docs/DECISIONS.md",
    "docs/DIFFERENCES.md",
    "docs/H3-TESTS.md",
    "docs/PROVED.md",
    "tests/calls.md",
    "tests/definitions.md",
    "bindings/rust/h3_qpack/src/heap.rs",
)
# Words that are right in few places: behind for a position, stands for what it is short for. They are counted.
WATCHED = {
    "behind": r"behind",
    "stand": r"stands?",
    "tell": r"tells?|told",
    "want": r"wants?|wanted",
    "hand": r"hands?|handed",
    "lend": r"lends?|lent",
    "hardly": r"hardly",
    "but for": r"but for",
    "of its own": r"of (?:its|their) own",
    "other than": r"other(?:wise)? than",
    "held against": r"(?:holds?|held) against",
}
# The most lines and words, as wc counts them, of a document that is read before all others.
MOST = {"README.md": (130, 1000)}
# The most words, with code and signs, of all documents that no script writes.
MOST_OF_ALL = 24_000
# Documents that a script writes.
GENERATED = [f"docs/{it}.md" for it in ("API", "CALLS", "CAUSES", "DEFINITIONS", "QPK-REFERENCE", "RULE")]
# Fronts of the names of files whose comments still have forbidden words. They are not read until they are rewritten.
UNREAD = ("crates/qpack_base/src/prefix_string/", "crates/qpack_base/specs/Payloads.antt")
# Between two words of a phrase: blanks, or the end of a line.
GAP = r"(?: +| *\n *)"
# Code in a line, which does not go on past an empty line.
CODE = r"`(?:[^`\n]|\n(?! *\n))*`"


def list_files():
    """Returns the files that are read, each with the function that keeps its prose."""
    patterns = {
        prose_of_markdown: [
            "*.md",
            "docs/*.md",
            "docs/dev/*.md",
            "dist/README.md",
            "c/README.md",
            "bench/README.md",
            "crates/README.md",
            "tool/README.md",
            "tests/*.md",
            "bindings/README.md",
            "bindings/*/README.md",
            "examples/README.md",
            "examples/*/README.md",
        ],
        prose_of_c: ["dist/h3_qpack.h"],
        prose_of_rust: ["bindings/rust/h3_qpack/src/**/*.rs"],
        prose_of_help: ["crates/qpk/src/usage.rt"],
        prose_of_manual: ["tool/qpk.1"],
        prose_of_rattle: ["crates/*/src/**/*.rt", "crates/*/specs/**/*.antt"],
    }
    found = [(path, prose) for prose, globs in patterns.items() for it in globs for path in sorted(TOP.glob(it))]
    names = ((str(path.relative_to(TOP)), path, prose) for path, prose in found)
    return [(path, prose) for name, path, prose in names if name not in GENERATED and not name.startswith(UNREAD)]


def blank(found):
    """Returns blanks for what was found, and its ends of lines, so that every other character keeps its place."""
    return re.sub(r"[^\n]", " ", found[0])


def prose_of_markdown(text):
    """Blanks out blocks of code and of names that a script replaces, code in a line, and the targets of links."""
    text = re.sub(r"^( *)```.*?^\1```|^\{\{.*?^\}\}", blank, text, flags=re.M | re.S)
    lines, is_code, before = [], False, ""
    for line in text.split("\n"):
        is_code = line.startswith("    ") and (is_code or not before.strip())
        lines.append(" " * len(line) if is_code else line)
        before = line
    return re.sub(CODE + r"|\]\([^)]*\)", blank, "\n".join(lines))


def prose_of_c(text):
    """Keeps the comments, without their stars and the code in them."""
    kept = keep(text, re.compile(r"/\*.*?\*/", re.S))
    kept = re.sub(r"^ *\*|/\*|\*/", blank, kept, flags=re.M)
    return re.sub(CODE, blank, kept)


def prose_of_rust(text):
    """Keeps the doc comments, without the code in them."""
    kept = keep(text, re.compile(r"^ *//[/!].*", re.M))
    kept = re.sub(r"^ *//[/!]", blank, kept, flags=re.M)
    return re.sub(CODE, blank, re.sub(r"```.*?```", blank, kept, flags=re.S))


def prose_of_rattle(text):
    """Keeps the comments that have a line of their own, without the code in them."""
    kept = keep(text, re.compile(r"^ *(?:///|//!|//|--) .*", re.M))
    kept = re.sub(r"^ *(?://[/!]?|--)", blank, kept, flags=re.M)
    return re.sub(CODE, blank, re.sub(r"```.*?```", blank, kept, flags=re.S))


def prose_of_help(text):
    """Keeps the texts in quotes."""
    return keep(text, re.compile(r'"(?:[^"\\]|\\.)*"', re.S))


def prose_of_manual(text):
    """Blanks out the first words of the lines with requests."""
    return re.sub(r"^\.\w+", blank, text, flags=re.M)


def keep(text, pattern):
    """Blanks out what the pattern does not match."""
    at, parts = 0, []
    for it in pattern.finditer(text):
        parts += [re.sub(r"[^\n]", " ", text[at : it.start()]), it[0]]
        at = it.end()
    return "".join(parts) + re.sub(r"[^\n]", " ", text[at:])


def compile_words(words):
    """Returns the patterns of words and phrases by their names. A phrase may go on in the next line."""
    return {name: re.compile(rf"\b(?:{word.replace(' ', GAP)})\b", re.I) for name, word in words.items()}


def compile_forbidden(words):
    """Returns the patterns of forbidden words, each with what to write in its place."""
    return list(zip(compile_words({it: it for it in words}).values(), words.values()))


def find_forbidden(name, prose, forbidden):
    """Yields what to say of each forbidden word of a file."""
    for pattern, instead in forbidden:
        for it in pattern.finditer(prose):
            line = prose.count("\n", 0, it.start()) + 1
            yield f"{name}:{line}: '{' '.join(it[0].split())}' is forbidden; write: {instead}"


def find_length(name, text):
    """Yields what to say of a document that is longer than it may be."""
    lines, words = text.count("\n"), len(text.split())
    most_lines, most_words = MOST.get(name, (lines, words))
    if lines > most_lines or words > most_words:
        yield f"{name}: has {lines} lines and {words} words, and may have {most_lines} and {most_words}"


def main():
    everywhere = compile_forbidden(FORBIDDEN)
    in_documents = everywhere + compile_forbidden(FORBIDDEN_IN_DOCUMENTS)
    but_of_h3 = compile_forbidden(FORBIDDEN_BUT_OF_H3)
    watched = compile_words(WATCHED)
    wrong, counts, words, words_of_prose = [], dict.fromkeys(WATCHED, 0), 0, 0
    for path, keep_prose in list_files():
        text = path.read_text(encoding="utf-8")
        name, prose = str(path.relative_to(TOP)), keep_prose(text)
        is_document = path.suffix == ".md"
        if is_document:
            words += len(text.split())
            words_of_prose += len(prose.split())
        if keep_prose is not prose_of_rattle:
            for word, pattern in watched.items():
                counts[word] += len(pattern.findall(prose))
        wrong += find_length(name, text)
        forbidden = everywhere
        if is_document or keep_prose in (prose_of_manual, prose_of_c, prose_of_rust):
            forbidden = in_documents if name in OF_H3 else in_documents + but_of_h3
        wrong += find_forbidden(name, prose, forbidden)
    if words > MOST_OF_ALL:
        wrong.append(f"the documents have {words} words, and may have {MOST_OF_ALL}")
    for it in wrong:
        print(it)
    print("watched:", ", ".join(f"{word} {count}" for word, count in counts.items()))
    print(f"words: {len(wrong)} faults, in documents of {words} words of at most {MOST_OF_ALL}, {words_of_prose} without code")
    return 1 if wrong else 0


if __name__ == "__main__":
    sys.exit(main())
