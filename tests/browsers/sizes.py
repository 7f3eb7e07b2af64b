"""Pages of qpk report of many requests: how large they are, and how long they take.

The gate makes pages of 1,000 and 10,000 requests, and holds them to the bounds below. tests/browsers/report.py --sizes
measures 100,000 as well, and writes all figures into docs/PERFORMANCE.md.
"""
import datetime
import os
import re
import subprocess
import sys
from pathlib import Path

import large
from nghttp3 import Failure

TOP = Path(__file__).resolve().parents[2]
sys.path.insert(0, str(TOP / "tests"))
from slowness import measure_slowness  # noqa: E402 # pylint: disable=wrong-import-position

DOCUMENT = TOP / "docs" / "PERFORMANCE.md"
HEAD = "## The page of `qpk report`"
IN_THE_GATE, ALL = (1_000, 10_000), (1_000, 10_000, 100_000)
# Of 10,000 requests: bytes, KB, and seconds of the processor. In the gate a slow processor has longer, by as much as it is slower.
MOST_BYTES, MOST_MEMORY, MOST_SECONDS, MOST_READY, MOST_ANSWER = 5_000_000, 150_000, 3, 1.0, 0.2
MOST_OPEN = 5.0  # seconds by the clock until a page is ready that --sizes measures
ABOUT = """`tests/browsers/report.py --sizes` measured these on {date}, in headless Chromium, beside other work on the machine. Each
request has 17 fields, and its response 8. Seconds until the page is ready are by the clock, and others of the processor. A scroll and a
filter are the longest of 24 and of 5.

| requests | MB of HTML | s of `report` | MB of memory | s until ready | ms a scroll | ms a filter |
|---|---|---|---|---|---|---|
"""
FILTERS = ["status:404", "path:/api -method:post", "blocked", "cookie:session=7", ""]
# Shows a list, scrolls to a place of it, and filters. Each returns once the page is laid out.
SHOW = "(report.choose('{}'), document.body.offsetHeight)"
SCROLL = """(({{element}}, list) => {{ element.scrollTop = {} * element.scrollHeight; list.render(); return document.body.offsetHeight; }})(
    report.list, report.list)"""
FILTER = "(report.requests.filter.value = '{}', report.requests.update(), document.body.offsetHeight)"


def program():
    """Returns the program qpk, which ./qpk runs."""
    return str(TOP / "qpk")


def measure_steps(page):
    """Returns the seconds of the processor of the longest scroll, and of the longest filter."""
    places = [number * 7 % 12 / 11 for number in range(12)]
    scrolls = []
    for view in ("requests", "timeline"):
        page.ask(SHOW.format(view))
        scrolls += [seconds_of(page, SCROLL.format(it)) for it in places]
    page.ask(SHOW.format("requests"))
    return max(scrolls), max(seconds_of(page, FILTER.format(it)) for it in FILTERS)


def seconds_of(page, expression):
    """Returns the seconds of the processor that an expression takes in the page."""
    begin = page.processor()
    page.ask(expression)
    return page.processor() - begin


def measure(pages, requests):
    """Returns the figures of a page of that many requests."""
    path, page_path = (Path(pages.room) / f"{requests}.{it}" for it in ("txt", "html"))
    path.write_text(large.recording(program(), requests), encoding="ascii")
    words = [sys.executable, TOP / "tool" / "qpk-report", "report", path, "-o", page_path]
    with subprocess.Popen(words, env={**os.environ, "QPK": program()}) as running:
        _, status, used = os.wait4(running.pid, 0)
        running.returncode = os.WEXITSTATUS(status)
    if running.returncode:
        raise Failure(f"qpk-report ended with {running.returncode} for {requests} requests")
    found = {
        "requests": requests,
        "bytes": page_path.stat().st_size,
        "memory": used.ru_maxrss,
        "seconds": used.ru_utime + used.ru_stime,
    }
    page = pages.open(page_path.read_text("utf-8"))
    found["ready"] = page.processor()
    found["clock"] = page.ask("performance.getEntriesByName('ready')[0].startTime / 1000")
    found["scroll"], found["filter"] = measure_steps(page)
    if page.ask("report.connection.requests.length") != requests:
        raise Failure(f"a page of {requests} requests has others")
    page.close()
    return found


def is_slow(found, slowness):
    """Returns whether a page takes too long on a processor that is that much slower than usual."""
    return (
        found["seconds"] > slowness * MOST_SECONDS
        or found["ready"] > slowness * MOST_READY
        or max(found["scroll"], found["filter"]) > slowness * MOST_ANSWER
    )


def check(pages):
    """Holds pages to the bounds."""
    found = []
    for requests in IN_THE_GATE:
        before = measure_slowness()
        found.append(measure(pages, requests))
        if is_slow(found[-1], max(before, measure_slowness())):
            raise Failure(f"it takes too long: {found[-1]}")
    for it in found:
        if it["bytes"] > MOST_BYTES or it["memory"] > MOST_MEMORY:
            raise Failure(f"it is too large: {it}")
    return "; ".join(f"{it['requests']} requests {it['bytes']} bytes, ready after {it['ready']:.2f} s" for it in found)


def row_of(it):
    """Returns the row of a page in the table."""
    return (
        f"| {it['requests']:,} | {it['bytes'] / 1e6:.2f} | {it['seconds']:.1f} | {it['memory'] / 1000:.0f} | "
        f"{it['clock']:.2f} | {1000 * it['scroll']:.0f} | {1000 * it['filter']:.0f} |\n"
    )


def write(pages, numbers):
    """Writes the figures of pages of those numbers of requests into the document. Yields what takes too long."""
    rows = []
    for it in (measure(pages, requests) for requests in numbers):
        rows.append(row_of(it))
        print(rows[-1], end="", flush=True)
        if it["clock"] > MOST_OPEN or max(it["scroll"], it["filter"]) > MOST_ANSWER:
            yield f"{it['requests']} requests: {rows[-1].strip()}"
    text = f'{HEAD}\n\n{ABOUT.format(date=datetime.date.today())}{"".join(rows)}'
    before = DOCUMENT.read_text("utf-8")
    pattern = re.compile(re.escape(HEAD) + r".*?(?=\n## |\Z)", re.S)
    after = pattern.sub(lambda _: text, before) if pattern.search(before) else f"{before.rstrip()}\n\n{text}"
    DOCUMENT.write_text(after, encoding="utf-8")
