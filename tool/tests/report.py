#!/usr/bin/env python3
"""Tests tool/qpk-report: the numbers of a recorded connection, its tables, and the data of the page.

    tool/tests/report.py

The recording of tests/captured with Chromium is counted again from Chromium's own lists, from its bytes, and from what
qpk inspect and qpk show --table print. Small recordings are counted by hand. tests/browsers/report.py opens pages. This
ends with a line 'report: N tests .. passed', and with status 1 if a test failed.
"""
import base64
import collections
import gc
import itertools
import json
import os
import re
import shutil
import subprocess
import sys
import tempfile
import zlib
from pathlib import Path
from unittest import mock

TOP = Path(__file__).resolve().parents[2]
sys.dont_write_bytecode = True
sys.path[:0] = [str(TOP / "tool"), str(TOP / "tests"), str(TOP / "tests" / "browsers")]
from qpk.lines import pieces_of_lines  # noqa: E402 # pylint: disable=wrong-import-position
from qpk.report.columns import Columns, Texts  # noqa: E402 # pylint: disable=wrong-import-position
from qpk.report.connection import Finder, Reading  # noqa: E402 # pylint: disable=wrong-import-position
from qpk.report.lines import shown_form  # noqa: E402 # pylint: disable=wrong-import-position
from qpk.report.page import PageMaker, left_out  # noqa: E402 # pylint: disable=wrong-import-position
from qpk.report.recording import Recording, Source, read_recordings  # noqa: E402 # pylint: disable=wrong-import-position
import large  # noqa: E402 # pylint: disable=wrong-import-position
import qpk.source  # noqa: E402 # pylint: disable=wrong-import-position
from running import FORMED, PLAIN, are_linear, assert_linear  # noqa: E402 # pylint: disable=wrong-import-position
from running import (
    can_decrypt,
    cost_of,
    run_tests,
    shows_no_fault_of_a_script,
)  # noqa: E402 # pylint: disable=wrong-import-position

CAPTURED = TOP / "tests" / "captured"
RECORDING = CAPTURED / "chromium.txt"
BUILT = tempfile.TemporaryDirectory()  # the program and the library of dist/, which tests ask often
QPK = f"{BUILT.name}/qpk" if shutil.which("cc") and shutil.which("make") else str(TOP / "qpk")
MOST_CALLS = 27  # of Python for a line of a page
# A section that waits for an insertion: one line of the recording, and half a second.
BLOCKED = "@1.5 b 4 028010\n@2 e 3fe11f6294e7838c767f\n"
# At capacity 76: foo: bar is inserted, duplicated and inserted again, which evicts the first. A section has a line of
# each kind: static 17, dynamic 0, and literals with the name of static 29, with that of dynamic 0, and with their own,
# of which one is never indexed.
EACH_KIND = "e 3f2d 6294e7838c767f 00 62:94:e7 0x838c767f\r\nb 0 0400 d1 80 5f0e0161 400161 21610162 31610162\n"
# What tshark prints of a packet: the number of its connection, and the length and the payload of a HEADERS frame.
PACKET = """<packet><field name="frame.time_relative" show="1"/><field name="ip.src" show="10.0.0.1"/>
<field name="ip.dst" show="10.0.0.2"/><field name="udp.srcport" show="5000"/><field name="udp.dstport" show="443"/>
<field name="quic.connection.number" show="{}"/><field name="quic.stream.stream_id" show="0"/>
<field name="quic.stream_data" value="01{}"/></packet>"""


def start(*words, text=None, cwd=None, **variables):
    """Runs the script, with a text as its input, and returns its status, its output and its faults."""
    ran = subprocess.run(
        [sys.executable, str(TOP / "tool" / "qpk-report"), *map(str, words)],
        input=None if text is None else text.encode("latin-1"),
        stdout=subprocess.PIPE,
        stderr=subprocess.PIPE,
        cwd=cwd,
        env={**os.environ, "QPK": QPK, **variables},
        check=False,
    )
    return ran.returncode, ran.stdout.decode(), ran.stderr.decode()


def ask(*words, text=None, status=0, **variables):
    """Returns the output of the script, which ends with a status and reports no fault."""
    got, printed, faults = start(*words, text=text, **variables)
    assert (got, faults) == (status, ""), (got, faults)
    return printed


def ask_json(*words, **options):
    """Returns the objects that the script prints."""
    return [json.loads(line) for line in ask(*words, "--json", **options).splitlines()]


def refuse(*words, text="", **variables):
    """Returns why the script gives no answer."""
    status, printed, faults = start(*words, text=text, **variables)
    assert (status, printed) == (1, ""), (status, printed)
    return faults.rstrip().splitlines()[-1]


def page_of(*words, **options):
    """Returns a page, and its data."""
    html = ask("report", *words, **options)
    return html, data_of(html)


def data_of(html):
    """Returns the data of a page. Each connection has its events as objects, beside its rows."""
    (packed,) = re.findall(r'<script type="application/octet-stream" id="data">([A-Za-z0-9+/=]*)</script>', html)
    data = json.loads(zlib.decompress(base64.b64decode(packed)))
    for connection in data["connections"]:
        connection["events"] = list(events_of(connection["trace"], data))
    return data


def events_of(trace, data):
    """Yields the events of a connection: what each row has, with its line and its time, and the parts of its bytes."""
    records, rows, line = trace["records"], iter(enumerate(trace["events"])), 0
    for place, (step, size) in enumerate(zip(records["lines"], records["sizes"])):
        line += step
        for number, row in itertools.islice(rows, size):
            found = {"line": line, "row": row, "rest": trace["rest"].get(str(number)), "hex": re.sub("[()]", "", row[1])}
            found["time"] = records["times"] and records["times"][place]
            found["refused"] = trace["refused"].get(str(number))
            if row[0] == "s":
                found["hex"] = row[1][1 : row[1].index(")")]
                found["groups"] = [long or short for long, short in re.findall(r"\(([0-9a-f]*)\)|([0-9a-f]{2})", row[1])]
                found["shapes"] = [it >> 1 if it & 1 else None for it in row[5]]
                found["lines"] = [form_of(it, data["shapes"], row[4]) for it in row[5]]
            yield found


def form_of(code, shapes, base):
    """Returns the form of a line as qpk show prints it."""
    if code & 1:
        return shapes["forms"][code >> 1]
    distance = code // 2
    form = f"post-base {-1 - distance}" if distance < 0 else f"dynamic {distance}"
    return f"{form} (entry {base - distance})"


def check(found, **expected):
    """Compares some members of an object."""
    assert {name: found[name] for name in expected} == expected, found


# ---- The recording with Chromium


def words_of_recording(mark):
    """Yields the words of the lines of an end, without time and mark."""
    for line in RECORDING.read_text("utf-8").splitlines():
        words = line.split()
        if words[1] == mark:
            yield words[2:]


def sizes(mark):
    """Returns how many bytes an end sent in lines of each kind."""
    found = collections.Counter()
    for kind, *rest in words_of_recording(mark):
        found[kind] += 0 if kind == "s" else len(rest[-1]) // 2
    return found


def inspected(mark):
    """Returns how often qpk inspect, another reader, prints each kind of line and instruction of an end's encoder."""
    lines = ["\t".join((kind, rest[-1])) for kind, *rest in words_of_recording(mark) if kind in ("e", "b")]
    text = "".join(f"{it}\n" for it in lines)
    ran = subprocess.run([QPK, "inspect", "65536"], input=text, stdout=subprocess.PIPE, encoding="utf-8", check=True)
    return collections.Counter(re.match(r"duplicate|[a-z]+ [a-z]+|[a-z]+", it)[0] for it in ran.stdout.splitlines())


def test_numbers_of_chromium():
    """The numbers are those of Chromium's log, of the bytes, and of qpk inspect."""
    logged = json.loads((CAPTURED / "chromium.json").read_text("utf-8"))
    for found, mark, other in zip(ask_json("stats", RECORDING), "><", "<>"):
        lists = logged[found["from"]].values()
        kinds, own, peer = inspected(mark), sizes(mark), sizes(other)
        check(
            found,
            sections=len(lists),
            sections_not_decoded=0,
            fields=sum(map(len, lists)),
            list_bytes=sum(len(field) - len(": ") for fields in lists for field in fields),
            section_bytes=own["b"],
            encoder_stream_bytes=own["e"],
            decoder_stream_bytes=peer["d"],
            insertions=sum(kinds[it] for it in ("insert static", "insert dynamic", "insert literal", "duplicate")),
            duplicates=kinds["duplicate"],
        )
        check(found["hits"], static=kinds["indexed static"], literal=kinds["literal"])
        assert found["hits"]["dynamic"] == kinds["indexed dynamic"] + kinds["postbase"]
        assert sum(found["bytes_of_lists"]) == own["b"] + own["e"]
        assert found["average_bytes"] == round((own["b"] + own["e"]) / len(lists), 3)


def test_numbers_of_the_capture():
    """A capture has the same numbers, after a line with its connection."""
    if can_decrypt():
        head, *found = ask_json("stats", CAPTURED / "chromium.pcapng")
        assert head == {"connection": 0} and found == ask_json("stats", RECORDING)


def test_connections():
    """Each connection of a capture is counted, or the one that is named, and a page has all."""
    text = f"<pdml>{PACKET.format(0, '030000d1')}{PACKET.format(5, '040000d1d1')}</pdml>"
    with tempfile.TemporaryDirectory() as room:
        path = Path(room) / "two.pdml"
        path.write_text(text, "utf-8")
        heads = ask_json("stats", "--pdml", path)
        assert [it.get("connection", it.get("fields")) for it in heads] == [0, 1, 0, 5, 2, 0]
        assert ask_json("stats", "--pdml", path, "--connection", 5) == heads[3:]
        assert [len(it["events"][0]["lines"]) for it in page_of("--pdml", path)[1]["connections"]] == [1, 2]


def test_tables_of_chromium():
    """After each line both tables are those that qpk show --table prints."""
    words = [QPK, "show", "--json", "--table", "-"]
    shown = subprocess.run(words, input=RECORDING.read_bytes(), stdout=subprocess.PIPE, check=True)
    tables = {"client": {"table": [], "size": 0, "capacity": 0}, "server": {"table": [], "size": 0, "capacity": 0}}
    after = {}
    for it in map(json.loads, shown.stdout.splitlines()):
        if "table" in it:
            tables[it["from"]] = it
        after[it["line"]] = dict(tables)
    for line in (2, 4, 6, 21, 46, 52, 54, 55):
        for found in ask_json("table", RECORDING, "--at", line):
            expected = after[line][found["from"]]
            entries = [{name: value for name, value in it.items() if name != "draining"} for it in found["table"]]
            assert entries == expected["table"], line
            check(found, size=expected["size"], capacity=expected["capacity"])
    assert ask_json("table", RECORDING, "--at", "end") == ask_json("table", RECORDING, "--at", 55)


def test_the_life_of_an_entry():
    """Entry 8 of the client is in its first section, names entry 16, and is evicted by entry 80."""
    client, server = ask_json("table", RECORDING, "--entry", 8)
    check(client, size=50, name="sec-fetch-site", value="none")
    check(client["inserted"], line=4, encoder=301, bytes="6a4148b4a549275906497f83a8f517")
    assert [(it["line"], it["section"], it["offset"]) for it in client["referenced_by"]] == [(5, 0, 13)]
    assert [(it["line"], it["entry"]) for it in client["instructions"]] == [(10, 16)]
    check(client["evicted"], line=54, entry=80)
    check(server, name="x-a-22", evicted=None)
    assert [server] == ask_json("table", RECORDING, "--entry", 8, "--from", "server")


# ---- Small recordings, counted by hand


def test_a_blocked_section():
    """A section that waits is counted once, with the lines and the time that it waited."""
    (found,) = ask_json("stats", "-", text=BLOCKED)
    check(found, sections=1, fields=1, list_bytes=6, section_bytes=3, encoder_stream_bytes=10, bytes_of_lists=[13])
    check(found, insertions=1, blocked_sections=1, blocked_lines=1, blocked_seconds=0.5, ratio=round(13 / 6, 4))
    # Without a table it is 0000 2a94e7 03626172: a literal of 7 bytes after the prefix.
    check(found, without_table_bytes=9, saved_bytes=9 - 13)
    (waits,) = ask_json("stats", "-", text=BLOCKED.splitlines()[0])
    check(waits, sections=0, sections_not_decoded=1, blocked_sections=1, bytes_of_lists=[], ratio=0.0)
    (given_up,) = ask_json("stats", "-", text=BLOCKED.replace("\n", "\nc 4\n", 1))
    check(given_up, sections=0, sections_not_decoded=1, insertions=1, never_referenced=1, encoder_stream_bytes=10)


def test_instructions_before_lists():
    """A list has the instructions since the list before it, though the last of them is whole long before the next."""
    text = "e 3fe11f 6294e7838c767f\nb 0 0000d1\nb 4 0000\ne 00 62\nb 8 0000d1\nb 12 0000d1\ne 94e7838c767f\nb 16 0000\n"
    (found,) = ask_json("stats", "-", text=text)
    check(found, bytes_of_lists=[13, 2, 4, 3, 9], encoder_stream_bytes=18)


def cost_of_report(*words, text):
    """Returns the seconds and the KB of memory that the script and what it started took, and its output."""
    with tempfile.TemporaryFile() as recording, tempfile.TemporaryFile() as output:
        recording.write(text.encode())
        recording.seek(0)
        command = [sys.executable, str(TOP / "tool" / "qpk-report"), *words, "-"]
        seconds, memory = cost_of(command, recording, output, env={**os.environ, "QPK": QPK})
        output.seek(0)
        return seconds, memory, output.read().decode()


def test_large_recordings():
    """The time is linear in the sections, and 40,000 take at most 150 MB. The numbers are those of all."""
    beginning, sections = "e 3fe11f6294e7838c767f\n", 40_000
    small, large = ("".join(f"b {4 * it} 028010d1d7c1\n" for it in range(size)) for size in (sections // 4, sections))
    seconds, _, _ = cost_of_report("stats", "--json", text=beginning + small)
    more, memory, output = cost_of_report("stats", "--json", text=beginning + large)
    assert are_linear(seconds, more) and memory <= 150_000, (seconds, more, memory)
    check(json.loads(output), sections=sections, fields=4 * sections, insertions=1, section_bytes=6 * sections)
    _, memory, output = cost_of_report("report", text=beginning + large)
    assert memory <= 150_000 and len(output) < 3 << 20, (memory, len(output))
    connection = data_of(output)["connections"][0]
    shown, (direction,) = connection["events"], connection["directions"]
    assert len(shown) == sections + 2 and connection["left_out"] == []
    assert direction["rows"][0] == ["sections", f"{sections}; fields in them {4 * sections}"]
    assert shown[-1]["lines"] == ["post-base 0 (entry 1)", "static 17", "static 23", "static 1"], shown[-1]


def calls_of_page(recording):
    """Returns how many calls Python made for a page, of its functions and of those in C, and the page."""
    calls = 0

    def count(_, event, __):
        nonlocal calls
        calls += event in ("call", "c_call")

    page = PageMaker()
    sys.setprofile(count)
    try:
        page.add(recording)
        html = "".join(page.parts())
    finally:
        sys.setprofile(None)
    return calls, html


def test_the_cost_of_a_page():
    """A page takes a bounded number of calls for each of its lines, with all that belongs to them, which no other work on
    the machine changes. Twice as many lines take twice as many."""
    costs = []
    for requests in (200, 400):
        recording = Recording("", large.recording(QPK, requests).encode(), [])
        calls, html = calls_of_page(recording)
        lines = sum(len(it.get("lines", ())) for it in data_of(html)["connections"][0]["events"])
        assert lines == 25 * requests, lines
        costs.append(calls / lines)
    assert max(costs) <= MOST_CALLS and abs(costs[0] - costs[1]) < 3, costs


def test_a_capture_is_decrypted_once():
    """For a page, with what check says of it; and each connection is a recording as lines prints it."""
    if not can_decrypt():
        return
    with mock.patch.object(qpk.source, "read_capture", wraps=qpk.source.read_capture) as read:
        (recording,) = read_recordings(Source(str(CAPTURED / "chromium.pcapng")))
        _, html = calls_of_page(recording)
    assert read.call_count == 1 and data_of(html)["connections"][0]["verdict"]["seen"].startswith("packets: client ")
    words = [sys.executable, TOP / "tool" / "qpk-capture", "lines", CAPTURED / "chromium.pcapng"]
    printed = subprocess.run(words, stdout=subprocess.PIPE, check=True).stdout
    assert printed == b"# %b\n%b" % (recording.name.encode(), recording.data)


def test_what_a_page_has_no_room_for():
    """Many rows, and many faults: the page has the first ones, and says so."""
    columns = Columns(Texts(), set())
    columns.texts.room_of_rows = 5
    for event in Reading(said_of(4), []).events():
        columns.take(event)
    columns.finish()
    assert [json.loads(it)[0] for it in columns.rows] == ["b"] * 4 + ["s"]
    assert list(left_out(columns, 0))[0].startswith("This page shows the first 5 of 8 events, ")
    faults = page_of("-", text="b 0 ff\n" * 1200, status=2)[1]["connections"][0]
    assert len(faults["faults"]) == 1000 and faults["verdict"] == {"certain": 1200, "explained": 0}
    assert faults["left_out"] == ["This page lists the first 1000 of 1200 faults. qpk check prints each fault."]
    assert faults["faults"][999]["event"] == 999
    assert page_of("-", text=BLOCKED)[1]["connections"][0]["left_out"] == []


def test_many_sections_at_once():
    """The time is linear for sections that wait on a stream, that a line unblocks, that are refused, and for blanks."""
    insertion = "e 3fe11f6294e7838c767f\n"
    for text in (
        lambda size: "s 4096 65535\n" + "b 4 0200ff\n" * size + insertion,
        lambda size: "s 4096 65535\n" + "".join(f"b {4 * it} 0200ff\n" for it in range(size)) + insertion,
    ):

        def read(size, text=text):
            recording = Recording("", text(size).encode(), [])
            events = list(Reading(said_of(size), recording.pieces()).events())
            assert sum(it.arrival is not None for it in events) == size
            finder = Finder(events)
            assert finder.find({"line": size + 2, "section": 4}).arrival

        assert_linear(read, 4000)
    assert_linear(lambda size: list(pieces_of_lines([" " * size, "@" + " " * size, "b" + " " * size])), 5000)


def said_of(size):
    """Yields what qpk shows of sections on one stream, which a line unblocks and which are then refused."""
    for line in range(2, size + 2):
        yield {"line": line, "section": 4, "was_blocked": False, "blocked_until": 1}
    for _ in range(size):
        yield {"line": size + 2, "section": 4, "was_blocked": True, "refused": "why", "offset": 2}


def test_both_directions():
    """A decoder stream, SETTINGS and a stream that was given up are about the encoder of the other end."""
    text = "< s 4096 1\n> b 4 028010\n< c 4\n> b 4 028010\n> e 3fe11f6294e7838c767f\n< d 84\n< b 0 0000d1\n"
    client, server = ask_json("stats", "-", text=text)
    check(client, sections=1, sections_not_decoded=1, blocked_sections=2, blocked_lines=1, decoder_stream_bytes=1)
    check(server, sections=1, sections_not_decoded=0, blocked_sections=0, decoder_stream_bytes=0)
    connection = page_of("-", text=text)[1]["connections"][0]
    assert connection["directions"][0]["settings"] == "the decoder allows 4096 bytes and 1 blocked streams"
    assert connection["directions"][1]["settings"] == ""
    assert [it["row"][3] for it in connection["events"] if it["row"][0] == "t"] == [0, 0]
    assert connection["trace"]["records"]["ends"] == "<><>><<" and connection["trace"]["records"]["times"] is None


def test_each_kind_of_line():
    """Each kind of line, an entry that nothing references, a duplicate and an eviction are counted."""
    (found,) = ask_json("stats", "-", text=EACH_KIND)
    assert found["hits"] == {"static": 1, "dynamic": 1, "static_name": 1, "dynamic_name": 1, "literal": 2}
    check(found, insertions=3, duplicates=1, evictions=1, never_referenced=1, section_bytes=19, encoder_stream_bytes=17)
    check(found, fields=6, list_bytes=len(":methodGETfoobaracceptafooaabab"))
    second, third = (ask_json("table", "-", "--entry", it, text=EACH_KIND)[0] for it in (2, 3))
    assert not second["referenced_by"] and not second["instructions"]
    assert [it["offset"] for it in third["referenced_by"]] == [3, 8]
    text = ask("table", "-", "--entry", "1", text=EACH_KIND)
    assert text.splitlines() == [
        "entry 1, 38 bytes, foo: bar",
        "  inserted: line 1: encoder 2: insert as entry 1; bytes 6294e7838c767f",
        "  duplicated: line 1: encoder 9: duplicate 0 (entry 1) as entry 2",
        "  evicted: line 1: encoder 10: insert as entry 3",
    ]


def test_the_forms_of_references():
    """A line that references an entry has the form that qpk show prints, at the base, before it and after it."""
    text = "e 3fe11f 6294e7838c767f 6294e703626172\nb 0 0300 81 80\nb 4 0381 10 11\nb 8 0380 10 80 000161\n"
    words = [QPK, "show", "--json", "-"]
    shown = subprocess.run(words, input=text.encode(), stdout=subprocess.PIPE, check=True).stdout.splitlines()
    lines = [(it["line"], line) for it in map(json.loads, shown) for line in it.get("lines", ())]
    types = set()
    for entry in (1, 2):
        (found,) = ask_json("table", "-", "--entry", entry, text=text)
        expected = [(at, it["offset"], it["form"]) for at, it in lines if f"'entry': {entry}" in str(it["form"])]
        assert [(it["line"], it["offset"], it["form"]) for it in found["referenced_by"]] == expected, found
        types |= {(it["type"], it.get("index")) for _, _, it in expected}
    assert types == {("dynamic", 0), ("dynamic", 1), ("post-base", 0), ("post-base", 1), ("literal", None)}, types


def test_lists_that_qif_cannot_have():
    """Their fields and their references are counted, and not what they take without a table."""
    for value, counted in (("0a", 0), ("62", 2)):
        text = f"e 3fe11f6294e7838c767f\nb 0 0000d1\nb 4 0280 10 d1 2161 01{value}\n"
        (found,) = ask_json("stats", "-", text=text)
        check(found, fields=4, lists_not_counted=1 - counted // 2, never_referenced=0, list_bytes=2 * 10 + 6 + 2)
        check(found["hits"], static=2, dynamic=1, literal=1)
        # Without a table 0000d1, and 0000 2a94e7 03626172 d1 2161 0162, Huffman-coded.
        assert found["without_table_bytes"] == 3 + (0 if not counted else 2 + 7 + 1 + 4), found


def test_draining():
    """An entry drains from its last reference on, if it is evicted later."""
    text = "e 3f2d 6294e7838c767f\nb 0 0200 80\ne 6294e7838c767f\ne 6294e7838c767f\n"
    drain = []
    for line in (1, 2, 3, 4):
        (found,) = ask_json("table", "-", "--at", line, text=text)
        drain.append([(it["entry"], it["draining"]) for it in found["table"]])
    assert drain == [[(1, False)], [(1, True)], [(2, False), (1, True)], [(3, False), (2, False)]]


def test_the_bytes_of_the_page():
    """Each instruction and each line has its bytes: it ends where the next begins."""
    _, data = page_of("-", text=EACH_KIND)
    *instructions, section = data["connections"][0]["events"]
    assert [it["hex"] for it in instructions] == ["3f2d", "6294e7838c767f", "00", "6294e7838c767f"]
    assert section["groups"] == ["0400", "d1", "80", "5f0e0161", "400161", "21610162", "31610162"]
    (two,) = page_of("-", text="b 0 0000 d1 ff00 d1 ff01 ff02 d7\n")[1]["connections"][0]["events"]
    assert two["groups"] == ["0000", "d1", "ff00", "d1", "ff01", "ff02", "d7"]
    hows = ["static", None, "static-name", "dynamic-name", "literal", "literal"]
    assert [it if it is None else data["shapes"]["hows"][it] for it in section["shapes"]] == hows
    assert section["lines"] == [
        "static 17",
        "dynamic 0 (entry 3)",
        "literal with the name of static 29",
        "literal with the name of dynamic 0 (entry 3)",
        "literal",
        "literal never indexed",
    ]


def test_the_words_of_the_page():
    """The forms and the times of the page are those of qpk show, and each text is there once."""
    _, data = page_of(RECORDING)
    (connection,) = data["connections"]
    words = [QPK, "show", "--json", "-"]
    shown = subprocess.run(words, input=RECORDING.read_bytes(), stdout=subprocess.PIPE, check=True).stdout.splitlines()
    assert len(shown) == len(connection["events"])
    for said, event in zip(map(json.loads, shown), connection["events"]):
        check(event, line=said["line"], time=said["time"])
        assert event.get("lines", []) == [shown_form(it["form"]) for it in said.get("lines", [])], said["line"]
    assert len(set(data["fields"])) == len(data["fields"])


def test_the_verdict_of_a_capture():
    """The page has what check prints of each connection: what the file lacks, and which findings are marked."""
    if not can_decrypt():
        return
    capture = CAPTURED / "chromium-moved.pcapng"
    status, html, said = start("report", capture)
    assert (
        status == 2 and "qpk-capture: connection 0: packets: client 161 of " in said and "stream 2: bytes from 0 to " in said
    )
    (connection,) = data_of(html)["connections"]
    printed = subprocess.run(
        [TOP / "tool" / "qpk-capture", "check", capture],
        env={**os.environ, "QPK": QPK},
        capture_output=True,
        encoding="utf-8",
        check=False,
    ).stdout.splitlines()
    check(connection["verdict"], certain=0, explained=len(printed) - 2, seen=printed[1], lacks=True)
    assert all(it["perhaps"] for it in connection["faults"])
    _, whole = page_of(CAPTURED / "chromium.pcapng")
    check(whole["connections"][0]["verdict"], certain=0, explained=0, lacks=False)


def test_each_form_of_a_line():
    """A mark may be joined to its kind, and bytes may have blanks, colons and 0x: all is as of plain lines."""
    plain, formed = (page_of("-", text=it.encode().decode("latin-1"))[1] for it in (PLAIN, FORMED))
    assert plain == formed
    hexes = [it["hex"] for it in plain["connections"][0]["events"]]
    assert hexes == ["3f2d", "6294e7838c767f", "0200", "0200", "84", "0000", "88", "0200", ""]


def test_text():
    """The text has a row for each number, and a block for each list, which is ASCII where blocks can't be printed."""
    text = ask("stats", "-", text=EACH_KIND, PYTHONIOENCODING="utf-8")
    assert "  evictions               1\n" in text and "  bytes a list, in order  █ 36 to 36\n" in text
    assert "# 36 to 36" in ask("stats", "-", text=EACH_KIND, PYTHONIOENCODING="ascii")
    table = ask_json("table", "-", "--at", "end", text="e 3fe11f 41e9 02c3a9\n", PYTHONIOENCODING="ascii")
    assert [(it["name"], it["value"]) for it in table[0]["table"]] == [({"hex": "e9"}, "\xe9")]
    lists = "b 0 0000d1\nb 4 0000d1d1d1d1d1d1\nb 8 0000\n"
    assert "  bytes a list, in order  ▄█▃ 2 to 8\n" in ask("stats", "-", text=lists, PYTHONIOENCODING="utf-8")
    assert ask("table", "-", "--at", "1", text=EACH_KIND).splitlines() == [
        "entries 2, 76 of 76 bytes, evicted 1",
        "  entry 3, 38 bytes, foo: bar",
        "  entry 2, 38 bytes, foo: bar",
    ]


def test_a_recording_of_the_interop():
    """A recording of records is read with --qif, and its lines are its records."""
    lists = b":method\tGET\nfoo\tbar\n\nfoo\tbar\n\n"
    words = [QPK, "encode", "--qif", "4096", "100", "1"]
    records = subprocess.run(words, input=lists, stdout=subprocess.PIPE, check=True).stdout.decode("latin-1")
    (found,) = ask_json("stats", "-", "--qif", text=records)
    check(found, sections=2, fields=3, insertions=1, list_bytes=22, encoder_stream_bytes=10)
    (life,) = ask_json("table", "-", "--qif", "--entry", 1, text=records)
    assert [it["line"] for it in life["referenced_by"]] == [3, 4]


# ---- The lists again, by the library


def test_other_capacities():
    """The library takes at capacity 0 what is counted without a table, less a byte for a string that is longer in code, and
    less with one."""
    library = Path(BUILT.name) / "libh3_qpack.so.0"
    if library.exists():
        connections = ask_json("stats", RECORDING, "--try", "0,4096", H3_QPACK_LIBRARY=str(library))
        assert len(connections) == 2
        for found, longer in zip(connections, (0, 1)):
            plain, usual = found["tried"]
            check(plain, capacity=0, encoder_stream_bytes=0, bytes=found["without_table_bytes"] - longer)
            assert usual["bytes"] == usual["section_bytes"] + usual["encoder_stream_bytes"] < plain["bytes"] / 2
    assert "run `make -C " in refuse("stats", RECORDING, "--try", "0", H3_QPACK_LIBRARY="/nonexistent")


def trace_without_bytes(shown):
    """Returns a trace whose events have the lists that qpk show prints of a connection, and no bytes."""
    events = []
    for it in shown:
        if "lines" in it and "refused" not in it:
            own = it["from"] == "client"
            frame = {
                "frame_type": "headers",
                "headers": [{"name": line["name"], "value": line["value"]} for line in it["lines"]],
            }
            data = {"stream_id": it["section"], "frame": frame}
            events.append({"time": len(events), "name": f"http3:frame_{'created' if own else 'parsed'}", "data": data})
    return json.dumps({"traces": [{"title": "a\x1b", "vantage_point": {"type": "client"}, "events": events}]})


def try_lists(text, lists, *words):
    """Returns the lines that stats --try prints of a log without bytes, which it says on standard error."""
    library = str(Path(BUILT.name) / "libh3_qpack.so.0")
    status, printed, said = start("stats", "-", "--try", *words, text=text, H3_QPACK_LIBRARY=library)
    assert (status, said) == (0, f"qpk stats: it has {lists} header lists and no QPACK bytes\n"), said
    return printed.splitlines()


def test_lists_without_bytes():
    """Of a log that has lists and no bytes, --try says what the same recording with bytes takes; each connection is on its own."""
    shown = subprocess.run(
        [QPK, "show", "--json", "-"], input=RECORDING.read_bytes(), stdout=subprocess.PIPE, check=True
    ).stdout
    trace = trace_without_bytes(map(json.loads, shown.splitlines()))
    assert "18 header lists and no QPACK bytes: `qpk show` lists them" in refuse("stats", "-", text=trace)
    library = Path(BUILT.name) / "libh3_qpack.so.0"
    if not library.exists():
        return
    built = {"H3_QPACK_LIBRARY": str(library)}
    head, *found = map(json.loads, try_lists(trace, 18, "0,4096", "--json"))
    assert head == {"connection": 0, "log": "a "} and len(found) == 2
    for it, other in zip(found, ask_json("stats", RECORDING, "--try", "0,4096", **built)):
        check(
            it,
            lists=other["sections"],
            **{"from": other["from"], "fields": other["fields"], "list_bytes": other["list_bytes"]},
        )
        assert it["tried"] == other["tried"]
    headers = [{"name": name, "value": "value of some length"} for name in ("Accept", "x-\x1b")]
    entry = {"request": {"url": "https://a.example:1/", "headers": headers}}
    other = {"request": {"url": "http://b.example", "headers": headers}, "connection": "7"}
    har = json.dumps({"log": {"entries": [entry, other, entry, 1, {"request": {"headers": headers, "url": 2}}]}})
    lines = try_lists(har, 4, "4096")
    assert [it for it in lines if it.startswith("conn")] == [
        "connection 0, a.example:1",
        "connection 1, b.example, 7",
        "connection 2",
    ]
    sizes = [int(re.search(r" (\d+) bytes", it)[1]) for it in lines if "encoded at" in it]
    assert len(sizes) == 3 and sizes[1] == sizes[2] < sizes[0] < 2 * sizes[1]  # the second list of a connection is shorter
    assert try_lists(har, 4, "4096", "--connection", "1") == lines[5:10]
    refused = refuse("stats", "-", "--try", "4096", "--connection", 3, text=har, **built).splitlines()
    assert refused[-1] == "qpk stats: it has no connection 3, but 0 to 2", refused


# ---- What is refused, and what is wrong


def test_statuses():
    """Words and input that are refused end with status 1 and a reason; a recording with a fault with 2."""
    assert refuse("stats", "-", text="x 1\n") == 'qpk stats: line 1: "x" is not one of e, d, b, c and s'
    assert refuse("stats", "/nonexistent") == "qpk stats: /nonexistent is not a file that can be read"
    assert refuse("stats", "-", QPK="/nonexistent").startswith("qpk stats: /nonexistent can't be run")
    assert refuse("stats", "-", "--max-capacity", "x") == 'qpk: argument --max-capacity: "x" is not a whole number'
    assert refuse("stats") == "qpk: FILE is missing"
    assert refuse("stats", "-", "--table") == 'qpk: "--table" is not an option here'
    assert refuse("report", "-", "more") == 'qpk: "more" is one word too many'
    assert refuse("table", "-") == "qpk: --at or --entry is missing"
    assert refuse("table", "-", "--entry", "2", text=BLOCKED) == "qpk table: there is no entry 2: the last one is 1"
    assert refuse("table", "-", "--at", "1", "--from", "client", text=BLOCKED).endswith("leave --from out")
    assert refuse("report", "-", "-o", "/nonexistent/page", text=BLOCKED).startswith("qpk report: ")
    for command in ("report", "stats", "table"):
        assert ask(command, "--help").startswith(f"usage: qpk {command} ")
    ask("stats", "-", text="e ff\n" + "e 80\n" * 3, status=0)  # cut at its end
    (found,) = ask_json("stats", "-", text="b 0 0000d1ff\nb 4 0000d1\n", status=2)
    check(found, sections=1, sections_not_decoded=1, section_bytes=3)


def test_no_traceback():
    """Memory that ends, an output that is full or closed, and names with control characters have a line."""
    with tempfile.TemporaryDirectory() as room:
        wide, wider = Path(room) / "wide", Path(room) / "wider"
        for path, lines in ((wide, 180_000), (wider, 400_000)):
            path.write_text("b 4 0000" + "d1" * lines + "\n", encoding="utf-8")
        script = TOP / "tool" / "qpk-report"
        for command, reason in (
            (f"ulimit -v 70000; exec {script} stats {wide}", "refused: memory"),
            (
                f"exec {script} stats {wider}",
                "a section is too large: over 200000 lines, or 64 MB as JSON; read it by qpk show",
            ),
            (f"{script} stats {RECORDING} >/dev/full", "No space left on device: name another file, or make room there"),
            (f"{script} stats {RECORDING} >&-", "refused: output: standard output is closed"),
            (f"{script} stats --help >/dev/full", "No space left on device: name another file, or make room there"),
            (f"{script} stats --help >&-", "refused: output: standard output is closed"),
            (f"{script} stats - <&-", "refused: input: standard input is closed"),
        ):
            words = ["sh", "-c", command]
            ran = subprocess.run(words, env={**os.environ, "QPK": QPK}, capture_output=True, check=False)
            assert ran.returncode == 1 and ran.stderr.startswith(f"qpk stats: {reason}".encode()), (command, ran.stderr)
            assert ran.stderr.count(b"\n") == 1
    for words in (
        ["stats", "\x1b[31m\x9b"],
        ["stats", "-", "\x1b[31m"],
        ["table", "--at", "\x1b[31m", "-"],
        ["stats", "-\x1b"],
    ):
        status, printed, faults = start(*words, text="")
        assert (status, printed) == (1, "") and shows_no_fault_of_a_script(faults.encode()), faults


def test_files_after_two_minuses():
    """After -- a word is a file, whatever it begins with: a recording, or a trace, which another script reads."""
    with tempfile.TemporaryDirectory() as room:
        for name, text in (("-x", BLOCKED), ("--json", (TOP / "tests" / "qlog" / "client.qlog").read_text("utf-8"))):
            (Path(room) / name).write_text(text, encoding="utf-8")
            for words in (("stats",), ("table", "--at", "end"), ("report",)):
                status, printed, _ = start(*words, "--", name, cwd=room)
                assert (status, printed) == start(*words, f"./{name}", cwd=room)[:2] and status == 0, (words, name)


def test_a_fault_is_marked():
    """A fault of a section and one of the encoder stream are at their events, with what check says of them."""
    _, data = page_of("-", text="e 3fe11f\nb 0 0000d1ff\ne 6294e7838c767f 8500\n", status=2)
    connection = data["connections"][0]
    of_section, of_stream = connection["faults"]
    check(of_section, line=2, rfc9204="4.1.1", code=0x200)
    check(of_stream, line=3, rfc9204="2.2.3", code=0x201)
    assert connection["events"][of_section["event"]]["row"][:3] == ["s", "(0000)d1", 0]
    assert connection["events"][of_section["event"]]["rest"] == "ff"
    assert connection["events"][of_stream["event"]]["row"][2].startswith("encoder 10: ")
    assert connection["events"][of_stream["event"]]["hex"] == "8500"
    assert not page_of("-", text=EACH_KIND)[1]["connections"][0]["faults"]


def test_no_field_ends_the_page():
    """A field, a time and the name of a file that have signs of HTML are data, and come back."""
    value = b"</script><script>alert(1)</script>&lt;\\\xff\0<!--"
    text = f"@</script> b 0 0000 2161{len(value):02x} {value.hex()}\n"
    with tempfile.TemporaryDirectory() as room:
        path = os.path.join(room.encode(), b"<b>&\xff.txt")
        Path(os.fsdecode(path)).write_text(text, "utf-8")
        html, data = page_of(os.fsdecode(path))
    assert html.count("<script") == html.count("</script>") == 2 and "<b>" not in html and "<!--" not in html
    assert "<title>QPACK of &lt;b&gt;&amp;?.txt</title>" in html
    event = data["connections"][0]["events"][0]
    assert data["fields"] == [r"a: </script><script>alert(1)</script>&lt;\\\xff\x00<!--"]
    assert event["time"] == "</script>"


def main():
    """Runs all tests, three at once: most of their time programs are started."""
    if QPK.startswith(BUILT.name):
        subprocess.run(["make", "-s", "-C", str(TOP / "dist"), f"BUILD={BUILT.name}"], check=True)
    os.environ["QPK"] = QPK  # for the modules that tests call
    gc.disable()  # as the script does
    return run_tests(globals(), "report", "tool/qpk-report", at_once=3)


if __name__ == "__main__":
    sys.exit(main())
