#!/usr/bin/env python3
"""Opens reports of tool/qpk-report in headless Chromium and Firefox, and reads them there: tests/browsers/report.py.

The lists of a recorded connection with Chromium are compared with those of Chromium's own log, and both tables at
moments with what qpk table prints. A fault in the recording must be marked, and a field with the text of a script must
stay a text. A wrong field and a wrong entry that are planted in a page must be found. Needs chromium and firefox-esr, and
leaves out the one that is not there. It opens no connection.

    NAME..              makes these checks alone
    --pictures FOLDER   writes pictures of the report, and tests nothing
    --sizes [NUMBER..]  writes the sizes and the times of pages of that many requests into docs/PERFORMANCE.md

The last line is 'N passed, M failed'.
"""
import base64
import itertools
import json
import os
import re
import shutil
import subprocess
import sys
import zlib
from ctypes.util import find_library
from pathlib import Path

import checks
import devtools
import everybody
import keyboard
import lists
import processes
import sizes
from nghttp3 import Failure

TOP = Path(__file__).resolve().parents[2]
sys.path += [str(TOP / "tool"), str(TOP / "tool" / "tests")]
from sealed import Made, ack_frame, ip_packets, pcapng  # noqa: E402 # pylint: disable=wrong-import-position

CAPTURED = TOP / "tests" / "captured"
RECORDING = CAPTURED / "chromium.txt"
# Lines of the recording after which the tables are compared: at its ends, in a direction each, and around evictions.
MOMENTS = [2, 4, 5, 7, 12, 21, 40, 46, 47, 52, 55]
# Faults of the data of a page: a line of a section, and an entry of a table.
PLANTED = [(b":method: GET", b":method: PUT"), (b":authority: localhost", b":authority: elsewhere")]
# The lines of a connection with a request, and its response.
WHOLE_REQUEST = ["< s 4096 0", "> s 0 0", "> b 0 0000d1d7c1500161", "< b 0 0000d9"]
# What tshark prints of three connections, each with a request of static fields: a GET, a POST, and a GET that is cut.
PACKET = """<packet><field name="frame.number" show="{}"/><field name="frame.time_relative" show="1.5"/>
<field name="ip.src" show="10.0.0.1"/>
<field name="ip.dst" show="10.0.0.2"/><field name="udp.srcport" show="5000"/><field name="udp.dstport" show="443"/>
<field name="quic.connection.number" show="{}"/><field name="quic.stream.stream_id" show="0"/>
<field name="quic.stream_data" value="01{}"/></packet>"""
PACKETS = [(11, 0, "050000d1d7c1"), (12, 5, "050000d4d7c1"), (13, 7, "060000d1d7c1ff")]
PDML = f"<pdml>{''.join(PACKET.format(*it) for it in PACKETS)}</pdml>"
# What the page has: each event by its title and its fields, and the tables.
EVENTS = """report.connection.events.map((row, event) => {
    const made = report.details.event(event);
    return {end: report.connection.end(event), line: report.connection.line(event), kind: row[0],
        title: made.querySelector('.meaning').firstChild.textContent, text: made.querySelector('.meaning').textContent,
        forms: Array.from(made.querySelectorAll('.form'), form => form.textContent),
        fields: Array.from(made.querySelectorAll('.pair .field:not(.inserted)'), field => field.textContent)};
})"""
TABLES = """Array.from(document.querySelectorAll('.tables .table'), table => ({
    text: table.textContent,
    rows: Array.from(table.querySelectorAll('tbody tr:not(.evicted)'),
        row => Array.from(row.cells, cell => cell.textContent)),
    draining: Array.from(table.querySelectorAll('tr.draining'), row => Number(row.cells[0].textContent)),
    inserted: Array.from(table.querySelectorAll('tr.inserted'), row => Number(row.cells[0].textContent))}))"""


def run(*words, statuses=(0,)):
    """Runs qpk-report, and returns what it prints."""
    ran = subprocess.run(
        [TOP / "tool" / "qpk-report", *words],
        capture_output=True,
        encoding="utf-8",
        check=False,
        env={**os.environ, "QPK": str(TOP / "qpk")},
    )
    if ran.returncode not in statuses:
        raise Failure(f"qpk-report {words[0]} ended with {ran.returncode}: {ran.stderr.strip()[:300]}")
    return ran.stdout


class Pages:
    """Reports in a folder, which a browser opens."""

    def __init__(self, browser, room):
        self.browser, self.room, self.number = browser, room, 0

    def open(self, html, place="", width=1280, scheme="light"):
        """Opens a report, at a place of it, and waits until it is whole."""
        self.number += 1
        path = Path(self.room) / f"{self.number}.html"
        path.write_text(html, encoding="utf-8")
        page = self.browser.open("about:blank")
        page.look(width, 860, scheme)
        page.go(path.as_uri() + place)
        page.wait_for("document.body && document.body.dataset.ready === 'yes'")
        return page

    @staticmethod
    def report():
        """Returns the report of the recording."""
        return run("report", RECORDING)

    @staticmethod
    def run(path):
        """Returns the report of a file in which nothing is wrong."""
        return run("report", path)

    def faulty_report(self):
        """Returns the report of the recording with faults."""
        return run("report", faulty_recording(self), statuses=(2,))


def compare_lists(page):
    """Checks that the page has the lists of Chromium's log, and returns how many."""
    lists = {"client": {}, "server": {}}
    for it in page.ask(EVENTS):
        if it["kind"] == "s":
            stream = it["title"].split()[1].rstrip(":")
            lists[it["end"]][stream] = sorted(field.replace("\\\\", "\\") for field in it["fields"])
    logged = json.loads((CAPTURED / "chromium.json").read_text("utf-8"))
    expected = {end: {stream: sorted(fields) for stream, fields in own.items()} for end, own in logged.items()}
    if lists != expected:
        raise Failure("the page has other lists than the log of Chromium")
    return sum(map(len, lists.values()))


def compare_words(page, path, statuses=(0,)):
    """Checks that the page has each event in the words of qpk show, and returns how many."""
    ran = subprocess.run([TOP / "qpk", "show", path], capture_output=True, encoding="utf-8", check=False)
    if ran.returncode not in statuses:
        raise Failure(f"qpk show ended with {ran.returncode}")
    shown = re.sub(r"^(@?[\d.]+ )?([<>] )?", "", ran.stdout, flags=re.M)
    place = 0
    events = page.ask(EVENTS)
    for it in events:
        for text in (it["title"], *it["forms"]):
            found = shown.find(text, place)
            if found < 0:
                raise Failure(f"qpk show does not print {text} after byte {place}")
            place = found + len(text)
    return len(events)


def expected_tables(line):
    """Returns the tables after a line, as the page shows what qpk table prints."""
    tables = []
    for it in map(json.loads, run("table", "--at", str(line), "--json", RECORDING).splitlines()):
        entries = it["table"]
        rows = [[str(entry["entry"]), str(entry["size"]), f"{entry['name']}: {entry['value']}"] for entry in entries]
        tables.append(
            {
                "count": f"entries {len(entries)}, {it['size']} of {it['capacity']} bytes, evicted {it['evicted']}",
                "rows": rows,
                "draining": [entry["entry"] for entry in entries if entry["draining"]],
            }
        )
    return tables


def move_to(page, line):
    """Moves the slider to the last event of a line."""
    found = page.ask(
        f"""(() => {{
        const slider = document.getElementById('moment'), {{connection}} = report;
        slider.value = connection.events.findLastIndex((row, event) => connection.line(event) === {line});
        slider.dispatchEvent(new Event('input'));
        return [document.querySelector('.moment').textContent, slider.getAttribute('aria-valuetext')];
    }})()"""
    )
    if not all(it.startswith(f"after line {line},") for it in found):
        raise Failure(f"the slider is {found}, and not at line {line}")


def compare_tables(page):
    """Checks the tables after each moment, and returns how many."""
    for line in MOMENTS:
        move_to(page, line)
        for shown, expected in zip(page.ask(TABLES), expected_tables(line)):
            rows = [[number, size, field.replace("\\\\", "\\")] for number, size, field in shown["rows"]]
            if rows != expected["rows"] or expected["count"] not in shown["text"]:
                raise Failure(f"the page has another table after line {line} than qpk table")
            if shown["draining"] != [it for it in expected["draining"] if it not in shown["inserted"]]:
                raise Failure(f"other entries drain on the page after line {line}")
    return 2 * len(MOMENTS)


def check_chromium(pages, html):
    """Checks the report of the recorded connection."""
    page = pages.open(html)
    if not page.ask("document.querySelector('.summary.right').textContent").endswith("Nothing is wrong on this connection."):
        raise Failure("the page has a fault")
    return f"{compare_lists(page)} lists as the log of Chromium, {compare_tables(page)} tables as qpk table"


def check_recording(pages):
    """Checks the report of the recording."""
    html = run("report", RECORDING)
    return f"{check_chromium(pages, html)}, {compare_words(pages.open(html), RECORDING)} events in the words of qpk show"


def check_capture(pages):
    """Checks the report of the capture, if it can be decrypted. Its lines have numbers lower by one."""
    if not (find_library("crypto") or shutil.which("tshark")):
        raise checks.NotShown("without libcrypto and tshark")
    return f"{compare_lists(pages.open(run('report', CAPTURED / 'chromium.pcapng')))} lists"


def check_links(pages):
    """An index leads to the insertion of its entry, and shows the table after it. An address opens what it names."""
    page = pages.open(run("report", RECORDING))
    seen = page.ask(
        """report.connection.events.flatMap((row, event) => row[0] !== 's' ? [] :
        Array.from(report.details.event(event).querySelectorAll('.form a'), link => {
            const to = Number(link.hash.match(/^#0.event.(\\d+)$/)[1]), made = report.details.event(to);
            return made.querySelector('.meaning').textContent.includes(`as ${link.textContent} `) &&
                made.querySelector('.inserted').textContent === link.closest('.meaning').querySelector('.field').textContent;
        }))"""
    )
    if len(seen) != 253 or not all(seen):
        raise Failure(f"{seen.count(True)} of {len(seen)} links lead to their entries, and not 253 of 253")
    for address, moment, chosen in (
        ("#0/event/5", "insert as entry 3", "encoder 25"),
        ("#0/stream/8", "section 8", "/echo?turn=0"),
    ):
        page = pages.open(run("report", RECORDING), address)
        said = page.ask(
            "[document.querySelector('.moment'), document.querySelector('.chosen-part')].map(it => it.textContent)"
        )
        if moment not in said[0] or chosen not in said[1] or page.ask("location.hash") != address:
            raise Failure(f"the address {address} shows {said[0]}")
    page.ask("document.querySelector('.form a').click()")
    page.wait_for(
        "location.hash.startsWith('#0/event/') && document.querySelector('.moment').textContent.includes('as entry ')"
    )
    return f"{len(seen)} links, and two addresses"


def faulty_recording(pages):
    """Returns a recording with a section that can't be decoded, so its acknowledgment is wrong, and with a cut end."""
    lines = RECORDING.read_text("utf-8").splitlines()
    at = next(i for i, line in enumerate(lines) if " < b 4 " in line)
    lines[at] = lines[at].replace(" < b 4 05", " < b 4 ff")
    path = Path(pages.room) / "faulty.txt"
    path.write_text("\n".join([*lines, "@1 > e ff"]) + "\n", encoding="utf-8")
    return path


def check_fault(pages):
    """Faults are counted at the top, with links, marked at their events, and in the rows of their requests."""
    page = pages.open(run("report", faulty_recording(pages), statuses=(2,)))
    top = page.ask("document.querySelector('.summary.wrong').textContent + document.querySelector('.faults').textContent")
    if "3 findings" not in top or "QPACK_DECOMPRESSION_FAILED" not in top:
        raise Failure(f"the page begins with {top}")
    targets = page.ask("Array.from(document.querySelectorAll('.faults a'), it => Number(it.hash.split('/')[2]))")
    marked = page.ask(
        f"""{targets}.map(event => {{
        const made = report.details.event(event);
        return [made.className, made.querySelector('.meaning').textContent, made.querySelector('.wrong').textContent];
    }})"""
    )
    titles = [title.split(":")[0] for _, title, _ in marked]
    if titles != ["section 4", "decoder 1", "encoder 1352"] or any("faulty" not in name for name, *_ in marked):
        raise Failure(f"the page marks {marked}")
    if re.findall(r"RFC 9204, section ([\d.]+)", " ".join(text for *_, text in marked)) != ["4.5.1.1", "4.4.1", "4.2"]:
        raise Failure(f"the page says at the faults {marked}")
    if page.ask("report.requests.shown.filter(it => it.faults.length).map(it => it.stream).join()") != "4,8":
        raise Failure("the rows of other requests have findings")
    return "three are marked"


def three_connections(room):
    """Returns the report of three connections, of which the third is refused."""
    path = Path(room) / "three.pdml"
    path.write_text(PDML, encoding="utf-8")
    return run("report", "--pdml", path, statuses=(2,))


def check_connections(pages):
    """Of three connections of which the third is refused, the page begins with that one, and says so."""
    page = pages.open(three_connections(pages.room))
    first = page.ask("document.querySelector('.summary').textContent")
    if not re.search(r"On connection 7, 10\.0\.0\.1:5000 > .*: the bytes end .*\. Findings on 1 of 3 connections\.", first):
        raise Failure(f"the page begins with another verdict: {first}")
    names = page.ask("Array.from(document.querySelectorAll('.connection .name'), it => it.textContent.split(',')[0])")
    found = []
    for place in range(3):
        page.ask(f"document.querySelectorAll('.connection')[{place}].click()")
        found.append(page.ask("report.connection.requests.map(it => it.method)"))
    if (names, found) != (["connection 7", "connection 0", "connection 5"], [["GET"], ["GET"], ["POST"]]):
        raise Failure(f"the page has {names} and {found}")
    return "three, the worst first"


def check_lacking(pages):
    """Of a connection of which packets are missing, and nothing is found, the page does not say that nothing is wrong."""
    if not find_library("crypto"):
        raise checks.NotShown("without libcrypto")
    said = []
    for is_whole in (True, False):
        made = Made().begin().take([f"@0 {it}" for it in WHOLE_REQUEST], acknowledge=0)
        made.send("<", made.packet("<", ack_frame(0, made.numbers[">"] - 1)))
        datagrams = made.datagrams if is_whole else made.datagrams[:3] + made.datagrams[4:]
        path = Path(pages.room) / "lacking.pcapng"
        path.write_bytes(pcapng(ip_packets(datagrams), secrets=made.keys()))
        page = pages.open(run("report", path))
        said.append(
            page.ask(
                "['.summary', '.seen'].map(it => document.querySelector(it)).map(it => `${it.className}: ${it.textContent}`)"
            )
        )
    (whole, _), (lacking, seen) = said
    if not re.fullmatch("summary right: .*Nothing is wrong on this connection.", whole):
        raise Failure(f"of a whole connection the page says {whole}")
    if not re.fullmatch("summary lacking: .*Nothing is found, and not all could be read on this connection.", lacking):
        raise Failure(f"of a connection of which packets are missing the page says {lacking}")
    return seen


def check_script(pages):
    """A field that has the text of a script is a text."""
    value = b'</script><script>planted=1</script><img src=x onerror=planted=1><!--&lt;\\\xff\x00"'
    line = f"b 0 0000{literal(b'x').hex()}{value_of(value).hex()}\n"
    path = Path(pages.room) / "script.txt"
    path.write_text(f"@</script><b> > {line}", encoding="utf-8")
    page = pages.open(run("report", path))
    shown = page.ask("document.querySelector('.meaning .field.literal').textContent")
    expected = "x: " + value.decode("latin-1").replace("\\", "\\\\").replace("\xff", "\\xff").replace("\0", "\\x00")
    if shown != expected:
        raise Failure(f"the field is {shown}")
    if page.ask("typeof planted !== 'undefined' || document.images.length || document.scripts.length !== 2"):
        raise Failure("a field became a part of the page")
    return "a text of 84 bytes"


def literal(name):
    """Returns the beginning of a literal line with a short name, which is not Huffman-coded."""
    return bytes([0x20 | len(name)]) + name


def value_of(value):
    """Returns a string below 127 bytes or of up to 254, not Huffman-coded."""
    return (bytes([len(value)]) if len(value) < 127 else bytes([127, len(value) - 127])) + value


def with_data(html, change):
    """Returns a page with other data."""
    begin = html.index('id="data">') + len('id="data">')
    end = html.index("</script>", begin)
    data = change(zlib.decompress(base64.b64decode(html[begin:end])))
    return html[:begin] + base64.b64encode(zlib.compress(data)).decode() + html[end:]


def check_planted(pages):
    """A wrong field of a list and a wrong entry, planted in the page, are found."""
    html = run("report", RECORDING)
    for old, new in PLANTED:
        try:
            check_chromium(pages, with_data(html, lambda data, old=old, new=new: data.replace(old, new, 1)))
        except Failure:
            continue
        raise Failure(f"it was not found: {new}")
    return "both faults were found"


CHECKS = {
    "the recording": check_recording,
    "the capture": check_capture,
    "links": check_links,
    "a fault in the recording": check_fault,
    "connections": check_connections,
    "a connection that lacks packets": check_lacking,
    "a script in a field": check_script,
    "planted faults": check_planted,
    "the keyboard": keyboard.check,
    "everybody": everybody.check,
    "sorting": lists.check_sorting,
    "the waterfall": lists.check_waterfall,
    "packets": lists.check_packets,
    "any size": sizes.check,
    "processes": processes.check,
}


OF_CHROMIUM = ("any size", "processes")  # the first asks for seconds of the processor, and the second needs no browser


def pictures_of(browser, room, page, name, place=""):
    """Yields pictures of a report at a place of it, with their names: 1280 and 400 pixels wide, light and dark."""
    for width, scheme in itertools.product((1280, 400), ("light", "dark")):
        shown = Pages(browser, room).open(page, place, width, scheme)
        shown.ask("document.activeElement.blur()")
        yield f"{name}{'' if width == 1280 else '-narrow'}{'' if scheme == 'light' else '-dark'}.png", shown.picture()


def take_pictures(browser, room, folder):
    """Writes pictures of the report at a request in the middle, and of the three connections."""
    pages = [(run("report", RECORDING), "report", "#0/stream/24"), (three_connections(room), "connections", "")]
    for name, data in itertools.chain.from_iterable(pictures_of(browser, room, *it) for it in pages):
        (Path(folder) / name).write_bytes(data)


def try_checks(browser, room, names):
    """Makes checks in a browser, and returns how many passed and failed."""
    made = {it: lambda it=it: CHECKS[it](Pages(browser, room)) for it in names}
    return checks.try_checks("report.py", browser.name, made)


def measure(browser, room, words):
    """Does what the words ask for that is no test, and returns the status."""
    if words[0] == "--pictures":
        take_pictures(browser, room, words[1])
        return 0
    slow = list(sizes.write(Pages(browser, room), [int(it) for it in words[1:]] or sizes.ALL))
    print(*[f"it takes too long: {it}" for it in slow], sep="\n")
    return bool(slow)


def main():
    """Makes all checks, or those that are named."""
    words = sys.argv[1:]
    if words[:1] in (["--pictures"], ["--sizes"]):
        with checks.opened(devtools.Browser) as (browser, room):
            return measure(browser, room, words)

    def check(browser, room):
        has_all = browser.name == "Chromium"
        return try_checks(browser, room, [it for it in words or CHECKS if has_all or it not in OF_CHROMIUM])

    return checks.in_each("the page of qpk report", check)


if __name__ == "__main__":
    sys.exit(main())
