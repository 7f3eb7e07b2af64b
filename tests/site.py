#!/usr/bin/env python3
"""Makes the site of the documents by docs/site, and holds it to them.

    tests/site.py [--look FOLDER]

Each page must have the words of its document in their order, tags that end, and links to pages, headings and files that are
there. With --look, Chromium opens each page at two widths, light and dark: no page may be wider than the window, and what
it shows of README goes to FOLDER as pictures. The exit status is 1 if something is wrong.
"""
import re
import subprocess
import sys
import tempfile
from html.parser import HTMLParser
from pathlib import Path

TOP = Path(__file__).resolve().parent.parent
# Tags that have no end.
ALONE = {"meta", "link", "img", "li", "!doctype"}
WIDTHS = (360, 1200)
WORD = re.compile(r"\w+")


class Reader(HTMLParser):
    """Reads a page: the text of its body, the names in it, and where it links to."""

    def __init__(self):
        super().__init__()
        self.text, self.code, self.names, self.links, self.open, self.faults = [], [], set(), [], [], []

    def handle_starttag(self, tag, attrs):
        attrs = dict(attrs)
        self.names |= {attrs["id"]} if "id" in attrs else set()
        self.links += [attrs[it] for it in ("href", "src") if it in attrs]
        if tag not in ALONE:
            self.open.append(tag)
        if tag == "img":
            self.text.append(attrs["alt"])

    def handle_endtag(self, tag):
        if not self.open or self.open.pop() != tag:
            self.faults.append(f"</{tag}> has no beginning")

    def handle_data(self, data):
        if "main" in self.open:
            self.text.append(data)
            if not {"code", "pre"} & set(self.open):
                self.code.append(data)


def read_page(path):
    reader = Reader()
    reader.feed(path.read_text(encoding="utf-8"))
    return reader


def words_of(markdown):
    """Returns the words of a document as a reader sees them: without the targets of links and the signs of lists."""
    text = re.sub(r"^ *```\w*$", "", markdown, flags=re.M)
    text = re.sub(r"\]\([^)\s]*\)", "]", text)
    text = re.sub(r"^ {0,3}\d+\. ", "", text, flags=re.M)
    return WORD.findall(text)


def find_faults(document, page, pages):
    """Yields what is wrong with the page of a document."""
    shown = pages[page]
    yield from shown.faults
    yield from (f"<{it}> does not end" for it in shown.open if it != "html")
    expected, found = words_of(document.read_text(encoding="utf-8")), WORD.findall(" ".join(shown.text))
    if expected != found:
        at = next((i for i, pair in enumerate(zip(expected, found)) if pair[0] != pair[1]), min(len(expected), len(found)))
        yield f"it says {' '.join(found[at : at + 6])!r}, and the document {' '.join(expected[at : at + 6])!r}"
    left = re.search(r"\*\*|\]\(|^#+ |\|-", "".join(shown.code), re.M)
    if left:
        yield f"{left[0]!r} is left of the Markdown"
    for link in shown.links:
        path, _, name = link.partition("#")
        if re.match(r"[a-z]+:", link):
            continue
        to = (page.parent / path).resolve() if path else page
        if not to.is_file():
            yield f"{link} leads nowhere"
        elif name and to in pages and name not in pages[to].names:
            yield f"{link}: there is no such heading"


def check(folder):
    """Yields what is wrong with the site."""
    documents = {folder / it.relative_to(TOP).with_suffix(".html"): it for it in TOP.glob("**/*.md")}
    found = sorted(it for it in folder.glob("**/*.html") if it in documents)
    pages = {it: read_page(it) for it in found}
    for page in found:
        for fault in find_faults(documents[page], page, pages):
            yield f"{page.relative_to(folder)}: {fault}"
    if len(found) < 20 or not (folder / "report.html").is_file() or not (folder / "index.html").is_file():
        yield "pages are missing"


def look(folder, pictures):
    """Opens each page in Chromium. Yields each that is wider than its window."""
    sys.path.insert(0, str(TOP / "tests" / "browsers"))
    import devtools  # pylint: disable=import-outside-toplevel # tests/browsers/devtools.py

    Path(pictures).mkdir(parents=True, exist_ok=True)
    with tempfile.TemporaryDirectory() as room:
        browser = devtools.Browser(room)
        try:
            for path in sorted(folder.glob("**/*.html")):
                if path.name == "report.html":
                    continue  # tests/browsers/report.py looks at that page
                page = browser.open(path.as_uri())
                yield from look_at(page, path, folder, pictures)
                page.close()
        finally:
            browser.close()


def look_at(page, path, folder, pictures):
    for width in WIDTHS:
        for scheme in ("light", "dark"):
            page.look(width, 800, scheme)
            wide = page.ask("document.documentElement.scrollWidth")
            if wide > width:
                yield f"{path.relative_to(folder)}: it is {wide} wide in a window of {width}"
            if path.name == "index.html":
                Path(pictures, f"{width}-{scheme}.png").write_bytes(page.picture())


def main(words):
    with tempfile.TemporaryDirectory(prefix="h3-qpack-site-") as room:
        folder = Path(room).resolve() / "site"
        subprocess.run([TOP / "docs" / "site", folder], check=True, stdout=subprocess.DEVNULL)
        faults = list(check(folder))
        if words[:1] == ["--look"]:
            faults += look(folder, words[1])
    for it in faults:
        print(it)
    print(f"site: {len(faults)} faults")
    return 1 if faults else 0


if __name__ == "__main__":
    sys.exit(main(sys.argv[1:]))
