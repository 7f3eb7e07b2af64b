#!/usr/bin/env python3
"""Tests the traces in qlog that tool/qpk-capture reads and writes.

    tool/tests/traces.py

The traces of tests/qlog were made by hand, of the fields that the drafts have: of an end of each kind, as JSON, as
JSON-SEQ, and in the form of the first drafts. It ends with a line 'traces: N tests .. passed', and with status 1 if a
test failed.
"""
import json
import subprocess
import sys
import tempfile
from pathlib import Path

TOP = Path(__file__).resolve().parents[2]
sys.dont_write_bytecode = True
sys.path[:0] = [str(TOP / "tool"), str(TOP / "tests")]
import qpk.qlog  # noqa: E402 # pylint: disable=wrong-import-position
from running import FORMED, PLAIN, answers_at_once, assert_linear  # noqa: E402 # pylint: disable=wrong-import-position
from running import install, missing_tool, run_tests  # noqa: E402 # pylint: disable=wrong-import-position

QLOG = TOP / "tests" / "qlog"
CHROMIUM = TOP / "tests" / "captured" / "chromium.txt"
RECORD = "\x1e"
FOLDER = tempfile.TemporaryDirectory(prefix="h3-qpack-traces-")  # which ends with the script
ROOM = Path(FOLDER.name)
IS_QUICK = answers_at_once()
QPK = TOP / "qpk" if IS_QUICK else ROOM / "usr" / "bin" / "qpk"


def run(*words, data=""):
    """Runs a program, and returns its status, its output and what it said."""
    ran = subprocess.run([*map(str, words)], input=data, capture_output=True, encoding="utf-8", check=False)
    return ran.returncode, ran.stdout, ran.stderr


def lines_of(path):
    """Returns the lines that a trace is, and what is missing in it."""
    status, output, said = run(TOP / "tool" / "qpk-capture", "lines", path)
    assert status == 0, said
    return output.splitlines(), said.splitlines()


def lines_of_events(*events, **trace):
    """Returns the lines of a trace of one record an event, and what is missing in it."""
    with tempfile.NamedTemporaryFile("w", suffix=".sqlog", encoding="utf-8") as file:
        for it in ({"qlog_version": "0.3", "trace": {"vantage_point": {"type": "client"}, **trace}}, *events):
            file.write(f"{json.dumps(it)}\n")
        file.flush()
        lines, said = lines_of(file.name)
    return lines[1:], said


def objects(*words, data=""):
    """Returns the objects that qpk show --json prints."""
    status, output, said = run(QPK, "show", "--json", *words, data=data)
    assert status == 0, said
    return [json.loads(it) for it in output.splitlines()]


def sections(shown):
    """Returns the sections among objects: who sent each, its stream and its lines."""
    return [(it["from"], it["section"], it["required_insert_count"], it["lines"]) for it in shown if "lines" in it]


def test_client():
    """JSON of a client: limits of both ends, instructions and frames. A section that its frame has is taken once."""
    lines, said = lines_of(QLOG / "client.qlog")
    assert lines == [
        "# connection 0, client, a1",
        "@0.001500 > s 4096 16",
        "@0.002000 < s 4096 1",
        "@0.003000 > e 3fe11f",
        "@0.003000 > e 6294e7838c767f",
        "@0.003250 > b 4 028010",
        "@0.009000 < d 84",
        "@0.010000 < b 4 0000d9",
    ]
    assert said == ["qpk-capture: connection 0: events without their bytes, or after such, which are left out: 1"]


def test_server():
    """JSON-SEQ of a server: bytes of streams in any order and moved twice, two connections, frames that are cut."""
    lines, said = lines_of(QLOG / "server.sqlog")
    assert lines == [
        "# connection 0, server, first",
        "@0.002000 > s 4096 16",
        "@0.005000 > e 3fe11f6294e7838c767f",
        "@0.006000 > b 0 028010",
        "@0.008000 < d 80",
        "# connection 1, server, second",
        "@0.009000 < b 0 0000d1",
    ]
    assert said == [
        "qpk-capture: connection 1: > stream 6: bytes from 0 to 9 are missing",
        "qpk-capture: connection 1: events without their bytes, or after such, which are left out: 1",
    ]


def test_forerunner():
    """Events as lists, with times in microseconds, older names and bytes of their own."""
    lines, said = lines_of(QLOG / "forerunner.qlog")
    assert lines == [
        "# connection 0, a trace, c0ffee",
        "@0.001000 > s 220 0",
        "@0.002000 > e 3fbd01",
        "@0.002000 > e 6294e7838c767f",
        "@0.002500 > b 4 028010",
        "@0.002500 < d 84",
        "@0.003000 < b 4 0000d9",
    ]
    assert not said


def test_fields():
    """Shown are the fields of each trace. Nothing is wrong on it, but that a list of :method alone is no whole request."""
    method, status, own = [(":method", "GET")], [(":status", "200")], [("foo", "bar")]
    cases = {"client.qlog": [own, status], "server.sqlog": [own, method], "forerunner.qlog": [own, status]}
    for name, expected in cases.items():
        shown = [[(it["name"], it["value"]) for it in lines] for *_, lines in sections(objects(QLOG / name))]
        assert shown == expected, shown
        found, said, _ = run(QPK, "check", QLOG / name)
        findings = [it for it in said.splitlines() if "RFC" in it]
        if method in expected:
            assert found == 4 and len(findings) == 1, said
            assert findings[0].startswith("perhaps: line 1: ") and "a request has no :scheme" in findings[0], said
        else:
            assert found == 0 and not findings, said


def test_times():
    """Absolute times are counted from the first event, and those since the one before are added up."""
    events = [
        {"time": it, "name": "qpack:headers_encoded", "data": {"stream_id": 0, "raw": {"data": "0000d1"}}}
        for it in (1700000000000.25, 1700000000001.5)
    ]
    assert lines_of_events(*events)[0] == ["@0.000000 > b 0 0000d1", "@0.001250 > b 0 0000d1"]
    epoch = {"time_format": "relative_to_epoch"}
    assert lines_of_events(*events, common_fields=epoch) == lines_of_events(*events)
    steps = [{**it, "time": step} for it, step in zip(events, (2, 3))]
    delta = {"time_format": "delta"}
    assert lines_of_events(*steps, common_fields=delta)[0] == ["@0.002000 > b 0 0000d1", "@0.005000 > b 0 0000d1"]


def test_payload_of_a_frame():
    """The bytes of a frame may be the whole frame, or its payload, as their length says or the frame itself."""
    frame = {"frame_type": "headers"}
    for raw in ("01030000d1", "0000d1", {"data": "01030000d1"}, {"payload_length": 3, "data": "0000d1"}):
        for data in ({"frame": frame, "raw": raw}, {"frame": {**frame, "raw": raw}}):
            event = {"time": 0, "name": "h3:frame_created", "data": {"stream_id": 4, **data}}
            assert lines_of_events(event)[0] == ["@0.000000 > b 4 0000d1"], data


def test_streams():
    """Bytes of streams without an offset are the next ones, if they come from the application or go there."""

    def moved(data, **ends):
        return {"time": 0, "name": "transport:data_moved", "data": {"stream_id": 2, "data": data, **ends}}

    sent = [moved("02", **{"from": "application"}), moved("3f", **{"from": "user"}), moved("e11f", to="network")]
    assert lines_of_events(*sent)[0] == ["@0.000000 > e 3f"]
    got = [moved("03", to="application"), moved("0080", **{"from": "network", "offset": 0}), moved("81", to="user")]
    assert lines_of_events(*got)[0] == ["@0.000000 < d 80", "@0.000000 < d 81"]


def test_instructions_that_are_cut():
    """A stream ends before an instruction without its bytes, unless the bytes of the stream are there."""

    def created(kind, **raw):
        data = {"instruction": {"instruction_type": kind}, **raw}
        return {"time": 0, "name": "qpack:instruction_created", "data": data}

    events = [
        created("set_dynamic_table_capacity", raw={"data": "3fe11f"}),
        created("insert_with_literal_name", raw={"length": 7, "data": "62"}),
        created("duplicate", raw="00"),
        created("section_acknowledgment", raw="84"),
    ]
    lines, said = lines_of_events(*events)
    assert lines == ["@0.000000 > e 3fe11f", "@0.000000 > d 84"]
    assert said == [
        "qpk-capture: connection 0: > encoder stream: an instruction has no bytes",
        "qpk-capture: connection 0: events without their bytes, or after such, which are left out: 2",
    ]
    data = {"stream_id": 2, "offset": 0, "from": "application", "raw": {"data": "023fe11f6294e7838c767f00"}}
    lines, _ = lines_of_events(*events, {"time": 0, "name": "quic:stream_data_moved", "data": data})
    assert lines == ["@0.000000 > d 84", "@0.000000 > e 3fe11f6294e7838c767f00"]


def test_findings_where_bytes_are_missing():
    """What an instruction without its bytes may explain is marked as such. In a whole trace it is certain."""

    def event(pair, kind, **raw):
        return {"time": 0, "name": f"qpack:instruction_{pair}", "data": {"instruction": {"instruction_type": kind}, **raw}}

    cut = event("created", "insert_with_literal_name")
    told = event("parsed", "section_acknowledgment", raw="84")
    head = {"qlog_version": "0.3", "trace": {"vantage_point": {"type": "client"}}}
    for events, status, mark in (([told], 1, ""), ([cut, told], 4, "perhaps: ")):
        (ROOM / "cut.sqlog").write_text("".join(f"{json.dumps(it)}\n" for it in (head, *events)), "utf-8")
        found = run(QPK, "check", ROOM / "cut.sqlog")
        assert found[0] == status and found[1].splitlines()[-1].startswith(f"{mark}line 1: 0.000000 < decoder stream"), found


def test_sections_twice():
    """A section that a frame has is not taken again, and one that only its own event has is taken."""

    def event(name, data, **raw):
        return {"time": 0, "name": name, "data": {"stream_id": 4, **data, **raw}}

    frame = {"frame": {"frame_type": "headers"}}
    events = [
        event("http:frame_parsed", frame, raw="01030000d1"),
        event("qpack:headers_decoded", {}, raw="0000d1"),
        event("http:frame_parsed", frame, raw={"length": 900, "data": "0103"}),
        event("qpack:headers_decoded", {}, raw="0000d1"),
        event("qpack:headers_decoded", {}, raw="0000d9"),
        event("qpack:headers_encoded", {}, raw="0000d1"),
    ]
    lines, _ = lines_of_events(*events)
    assert [it.split(" ", 1)[1] for it in lines] == ["< b 4 0000d1", "< b 4 0000d1", "< b 4 0000d9", "> b 4 0000d1"]


def test_unknown_events():
    """Events that have nothing of QPACK are passed over, and say nothing."""
    raw = {"raw": {"data": "0000d1"}, "stream_id": 0}
    known = {"time": 0, "name": "qpack:headers_decoded", "data": raw}
    others = [
        {"time": 0, "name": "http:frame_created", "data": {"stream_id": 0, "frame": {"frame_type": "data"}}},
        {"time": 0, "name": "qpack:dynamic_table_updated", "data": {"update_type": "inserted", "entries": []}},
        {"time": 0, "name": "other:headers_decoded", "data": raw},
        {"time": 0, "name": "quic:packet_sent"},
    ]
    assert lines_of_events(known, *others) == (["@0.000000 < b 0 0000d1"], [])


def test_refused_files():
    """A record that is no JSON, a value of another kind, and a trace without bytes are refused."""
    event = {"time": "now", "name": "qpack:headers_decoded", "data": {"stream_id": 0, "raw": {"data": "0000d1"}}}
    for text, reason in (
        ('{"trace":{}}\n{"time"\n{}\n', "record 2 of the trace is no JSON: "),
        (f'{{"trace":{{}}}}\n{json.dumps(event)}\n', "a value is of another kind: "),
        ('{"trace":{}}\n{"time":0,"name":"qpack:headers_decoded","data":{"raw":"0"}}', "a value is of another kind: "),
        ('{"trace":{}}\n[]\n{}\n', "a record of the trace is no object"),
        ('{"traces":[7]}', "a value is of another kind: "),
        ('{"trace":{}}\n{"time":0,"name":"qpack:headers_decoded","data":{"stream_id":0}}', "has no bytes of QPACK: "),
        ('{"trace":{}}\n{"time":0,"name":"qpack:headers_decoded","data":{"raw":"0000"}}', "has no bytes of QPACK: "),
        ('{"qlog_version":"0.3","traces":[]}', "has no bytes of QPACK: "),
    ):
        status, output, said = run(TOP / "tool" / "qpk-capture", "show", "-", data=text)
        assert (status, output) == (1, "") and reason in said, said


def test_nesting():
    """A trace that is nested more deeply than Python reads is refused in a line."""
    deep = "[" * 200_000
    for text in (f'{{"traces":{deep}', f'{{"trace":{{}}}}\n{deep}\n{{}}\n', f'\x1e{{"a":{deep}'):
        said = "qpk-capture: the input is nested too deeply: name a trace, a capture or a recording\n"
        assert run(TOP / "tool" / "qpk-capture", "show", "-", data=text) == (1, "", said)


def test_what_is_left_out():
    """A section that is too long, and bytes after a gap, are reported even if nothing else is there."""

    def moved(offset, data):
        data = {"stream_id": 0, "offset": offset, "from": "network", "raw": {"data": data}}
        return {"time": 0, "name": "quic:stream_data_moved", "data": data}

    reason = "frames that are longer than 1048576 bytes, which are left out: 1"
    assert lines_of_events(moved(0, "01a0000000")) == ([], [f"qpk-capture: connection 0: < stream 0: {reason}"])
    reason = "bytes from 0 to 5 are missing"
    assert lines_of_events(moved(5, "00")) == ([], [f"qpk-capture: connection 0: < stream 0: {reason}"])


def test_limits_come_once():
    """The time for many SETTINGS is linear, and the first of each end are taken."""
    sections = [{"name": "qpack:headers_decoded", "data": {"stream_id": 0, "raw": "0000d1"}}]
    limits = [{"name": "http3:parameters_set", "data": {"owner": "remote", "max_table_capacity": it}} for it in (1, 2)]

    def read(size):
        trace = json.dumps({"traces": [{"events": sections * size + limits * size}]})
        (connection,) = qpk.qlog.connections_of_records(qpk.qlog.read_records(trace))
        assert [it for it in connection.lines if " s " in it] == ["@0.000000 < s 1 0"]

    assert_linear(read, 1000)


def test_chromium_and_back():
    """A trace of the capture of Chromium, read back, is the capture, with each instruction and each section."""
    status, trace, said = run(QPK, "show", "--qlog", CHROMIUM)
    assert (status, said) == (0, "")
    records = [json.loads(it) for it in trace.split(RECORD)[1:]]
    assert records[0]["qlog_format"] == "JSON-SEQ" and all("time" in it for it in records[1:])
    with tempfile.NamedTemporaryFile("w", suffix=".sqlog", encoding="utf-8") as file:
        file.write(trace)
        file.flush()
        head, *shown = run(QPK, "show", file.name)[1].splitlines()
        assert head == "connection 0, qpk show --qlog"
        assert shown == run(QPK, "show", CHROMIUM)[1].splitlines()
        assert sections(objects(file.name)) == sections(objects(CHROMIUM)) and len(sections(objects(CHROMIUM))) == 18


def test_written_events():
    """A section is written with its bytes once it is read, or at the end if it waits; and so is what is refused."""
    recording = (
        "@1.5 < s 4096 16\n@2 > b 4 028010\n> e 3fe11f 62\n@3 > e 94e7838c767f\n< d 84\n"
        "> b 8 0481\n> b 12 0000ff24\n> e ff\n"
    )
    status, trace, _ = run(QPK, "show", "--qlog", data=recording)
    events = [json.loads(it) for it in trace.split(RECORD)[2:]]
    assert status == 2
    raw = [(it["time"], it["name"], it["data"].get("raw", {}).get("data")) for it in events]
    assert raw[:6] == [
        (1500, "http:parameters_set", None),
        (2000, "qpack:stream_state_updated", None),
        (2000, "qpack:instruction_created", "3fe11f"),
        (3000, "qpack:instruction_created", "6294e7838c767f"),
        (3000, "qpack:stream_state_updated", None),
        (3000, "qpack:headers_encoded", "028010"),
    ]
    assert events[0]["data"]["owner"] == "remote"
    assert [it["data"]["state"] for it in (events[1], events[4])] == ["blocked", "unblocked"]
    assert events[3]["data"]["instruction"]["instruction_type"] == "insert_without_name_reference"
    section = events[5]["data"]
    assert section["block_prefix"] == {"required_insert_count": 1, "sign_bit": True, "delta_base": 0}
    index = {"table_type": "dynamic", "index": 0, "is_post_base": True}
    assert section["header_block"] == [{"header_field_type": "indexed_header", **index}]
    assert section["headers"] == [{"name": "foo", "value": "bar"}]
    assert [it[1:] for it in raw[6:]] == [
        ("qpack:instruction_parsed", "84"),
        ("qpack:stream_state_updated", None),
        ("qpack:headers_encoded", "0000ff24"),
        ("qpack:headers_encoded", "0481"),
    ]


def test_each_form_of_a_line():
    """A mark may be joined to its kind, and bytes may have blanks, colons and 0x: all is as of plain lines."""
    plain, formed = (run(QPK, "show", "--qlog", data=it) for it in (PLAIN, FORMED))
    assert plain == formed and plain[0] == 0, formed
    raw = [json.loads(it)["data"]["raw"]["data"] for it in plain[1].split(RECORD)[2:]]
    assert raw == ["3f2d", "6294e7838c767f", "020080", "020080", "84", "0000d1", "88", "0200d1"]


def test_bytes_of_sections():
    """Sections of a stream have their own bytes: two that wait, or the next after one that was given up or refused."""
    insertion = "e 6294e7838c767f\n"
    two = "b 4 028010\nb 8 0481\nb 4 028010d1\nb 4 0481\ne 3fe11f\n" + insertion
    given_up = "b 4 028010\nc 4\nb 4 028010d1\ne 3fe11f\n" + insertion
    refused = "s 4096 1\nb 8 028010\nb 4 028010d1\ne 3fe11f\n" + insertion + "b 4 038110\n" + insertion
    for data, streams, expected in (
        (two, [4, 4, 4, 8], ["028010", "028010d1", "0481", "0481"]),
        (given_up, [4, 4], ["028010d1", "028010"]),
        (refused, [8, 4, 4], ["028010", "038110", "028010d1"]),
    ):
        events = [json.loads(it) for it in run(QPK, "show", "--qlog", data=data)[1].split(RECORD)[2:]]
        sections = [it["data"] for it in events if "headers" in it["name"]]
        assert [it["raw"]["data"] for it in sections] == expected, events
        assert [it["stream_id"] for it in sections] == streams, events


def test_a_stream():
    """With --stream an instruction has its own bytes, and a section that waits is there at the end."""
    data = "e 3fe11f6294e7838c767f\nb 4 0200 80\nb 8 020080\nb 4 0480 10\nb 8 048010\nd 848801\n"
    _, trace, _ = run(QPK, "show", "--qlog", "--stream", 4, data=data)
    events = [json.loads(it) for it in trace.split(RECORD)[2:]]
    assert [(it["name"].split(":")[1], it["data"].get("raw", {}).get("data")) for it in events] == [
        ("headers_encoded", "020080"),
        ("stream_state_updated", None),
        ("instruction_parsed", "84"),
        ("headers_encoded", "048010"),
    ]


def test_statuses_of_connections():
    """The status is the greatest of the connections."""
    raw = {"refused": "0000ff24", "read": "0000d1"}
    name = "qpack:headers_encoded"
    events = [{"time": 0, "name": name, "group_id": it, "data": {"stream_id": 0, "raw": {"data": raw[it]}}} for it in raw]
    for it in (events, events[::-1]):
        data = "".join(f"{json.dumps(record)}\n" for record in [{"trace": {}}, *it])
        status, trace, said = run(QPK, "show", "--qlog", "-", data=data)
        assert (status, said, trace.count(RECORD)) == (2, "", 3), (status, said, trace)


def test_no_trace():
    """Where qpk refuses its words or its input there is no trace, and its status and its message are its own."""
    for words, data in (
        (("--max-capacity", "x"), "b 4 0000d1\n"),
        (("--foo",), "b 4 0000d1\n"),
        ((), "x 1\n"),
        ((), "e 3f2\n"),
        ((), "b 4 0000d1\ne 0g\n"),
        ((), "> b 4 0000d1\nb 4 0000d1\n"),
        (("--max-capacity", "1073741824"), "e 3f\n"),
    ):
        expected = run(QPK, "show", "--json", *words, data=data)
        assert expected[:2] == (1, "") and expected[2], expected
        assert run(QPK, "show", "--qlog", *words, data=data) == expected, words


def test_words():
    """Words that are of show alone; a trace is written of no recording of the interop."""
    for words in (("check", "--qlog"), ("show", "--qlog", "--qif"), ("check", "--stream", 4)):
        status, output, said = run(QPK, *words, CHROMIUM)
        assert (status, output) == (1, "") and f"{words[1]} is a word of show" in said, said


def main():
    """Runs all tests over ./qpk, or if the sources were changed over dist/."""
    if not IS_QUICK and missing_tool():
        print(f"traces: nothing was tested, as {missing_tool()} is not installed")
        return 0
    if not IS_QUICK:
        install(ROOM)
    return run_tests(globals(), "traces", "tool/qpk-capture")


if __name__ == "__main__":
    sys.exit(main())
