"""The lists of the page of qpk report: sorted by a click, the waterfall with its lines, and the packets of a capture."""
import sys
from pathlib import Path

from keyboard import expect
from nghttp3 import Failure

TOP = Path(__file__).resolve().parents[2]
# Streams 4 and 8 wait for an insertion, from 2 and 3 seconds to 5.
BLOCKED = """@1 > b 0 0000d1c1
@2 > b 4 0200d180
@3 > b 8 0200d180
@5 > e 3fe11f6294e7838c767f
@6 > b 12 0000d1c1
"""
# The texts of a column from top to bottom, and what its head says of the order.
COLUMN = """(name => {
    const {columns, body} = report.requests.list, place = columns.findIndex(it => it.text === name);
    const rows = Array.from(body.querySelectorAll('.row')).sort((one, other) =>
        one.getBoundingClientRect().top - other.getBoundingClientRect().top);
    return [columns[place].head.getAttribute('aria-sort'), rows.map(row => row.children[place].textContent)];
})"""
HEAD = "Array.from(document.querySelectorAll('.requests .head button')).find(it => it.textContent === '{}')"
# Of the waterfall, in pixels of the column: each bar of a wait from left to right, and each line to an insertion, with its
# height, and the middle of its circle.
WATERFALL = """(() => {
    const track = document.querySelector('.requests .rows .track').getBoundingClientRect();
    const svg = document.querySelector('.waits').getBoundingClientRect();
    const place = it => { const {x, y, width, height} = it.getBBox(); return [svg.left - track.left + x, svg.top - track.top + y, width, height]; };
    return {width: track.width, row: ROW,
        bars: Array.from(document.querySelectorAll('.bar-of-wait'), it => it.getBoundingClientRect())
            .map(it => [it.left - track.left, it.right - track.left]),
        lines: Array.from(document.querySelectorAll('.waits path'), place).map(([x, y, , height]) => [x, y, height]),
        circles: Array.from(document.querySelectorAll('.waits circle'), place).map(([x, y, width, height]) => [x + width / 2, y + height / 2]),
        titles: Array.from(document.querySelectorAll('.requests .track'), it => it.title)};
})()"""


def check_sorting(pages):
    """A click on a head sorts by its column, a second one turns it round; numbers are sorted as numbers, and ties stay."""
    page = pages.open(pages.report())
    expect(
        page,
        "report.requests.list.head.querySelector('[aria-sort=ascending]').textContent",
        "Time",
        "the first order is that of",
    )
    for name, key in (("Path", str), ("Instr.", int), ("Stream", int), ("Time", float)):
        before = sorted(page.ask(f"{COLUMN}('{name}')")[1], key=key)
        for order, expected in (("ascending", before), ("descending", before[::-1])):
            page.click(HEAD.format(name))
            if name == "Time" and order == "ascending":
                expect(page, f"{COLUMN}('Stream')[0]", "none", "the head of another column says")
            expect(page, f"{COLUMN}('{name}')", [order, expected], f"after a click on {name} its column is")
    page.click(HEAD.format("Method"))
    streams = page.ask("report.requests.shown.filter(it => it.method === 'GET').map(it => it.stream)")
    if len(streams) < 2 or streams != sorted(streams):
        raise Failure(f"of one method the streams are {streams}")
    return "by four columns, both ways"


def check_waterfall(pages):
    """A blocked request has a bar of its wait, and a line to the insertion: to the row of the request that it came with."""
    path = Path(pages.room) / "blocked.txt"
    path.write_text(BLOCKED, encoding="ascii")
    found = pages.open(pages.run(path)).ask(WATERFALL)
    row, at = found["row"], [found["width"] * second / 5 for second in range(6)]  # from the first request to the last
    # The insertion came with stream 4, whose own line ends above the middle of its row. There that of stream 8 ends.
    expected = {
        "bars": [[at[1], at[4]], [at[2], at[4]]],
        "lines": [[at[4], 1.5 * row - row / 3, row / 3], [at[4], 1.5 * row, row]],
        "circles": [[at[4], 1.5 * row - row / 3], [at[4], 1.5 * row]],
    }
    for name, wanted in expected.items():
        shown = found[name]
        if len(shown) != len(wanted) or any(abs(a - b) > 2 for one, other in zip(shown, wanted) for a, b in zip(one, other)):
            raise Failure(f"the {name} of the waterfall are at {shown}, and not at {wanted}")
    titles = [it.partition("; ")[2] for it in found["titles"]]
    if titles != ["", "blocked for 3.00 s", "blocked for 2.00 s", ""]:
        raise Failure(f"the waterfall says {titles}")
    return "two bars, two lines"


def check_packets(pages):
    """The requests and the events of a capture have the numbers of its packets, which a recording has not."""
    sys.path.insert(0, str(TOP / "tool"))
    import qpk.source  # pylint: disable=import-outside-toplevel # which is there with tool/ alone

    capture = TOP / "tests" / "captured" / "chromium.pcapng"
    with open(capture, "rb") as file:
        (connection,) = qpk.source.read_file(file, qpk.source.Wanted())
    page = pages.open(pages.run(capture))
    found = page.ask(
        "report.connection.events.map((_, event) => [report.connection.line(event), report.connection.packet(event)])"
    )
    if not found or any(packet != connection.packets[line - 1] for line, packet in found):
        raise Failure(f"the events have other packets: {found[:9]}")
    shown = page.ask(f"{COLUMN}('Packet')[1]")
    firsts = page.ask("report.requests.shown.map(it => report.connection.packet(it.event))")
    if not shown or shown != [str(it) for it in firsts[: len(shown)]]:
        raise Failure(f"the rows have the packets {shown}, and not {firsts}")
    if f"packet {firsts[0]}" not in page.ask(
        "document.querySelector('.moment').textContent + document.querySelector('.event h3').textContent"
    ):
        raise Failure("what is chosen names no packet")
    expect(
        pages.open(pages.report()), "report.requests.columns.some(it => it.key === 'packet')", False, "a recording has packets"
    )
    return f"{len(found)} events"
