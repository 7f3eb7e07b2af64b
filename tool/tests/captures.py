#!/usr/bin/env python3
"""Tests tool/qpk-capture: packets as tshark prints them, to the lines that qpk show reads; and a capture of Chromium.

    tool/tests/captures.py

In tests/captured are the first 60 packets between Chromium 156 and examples/http3-server, with their secrets; the lines that
qpk-capture printed of them; and the lists of fields of Chromium's own log. Without tshark the lines are taken as they are.
It ends with a line 'captures: N tests .. passed', and with status 1 if a test failed.
"""
import io
import json
import os
import random
import re
import shutil
import signal
import subprocess
import sys
import tempfile
import time
import traceback
from pathlib import Path

TOP = Path(__file__).resolve().parents[2]
sys.dont_write_bytecode = True
sys.path[:0] = [str(TOP / "tool"), str(TOP / "tests")]
import qpk.streams  # noqa: E402 # pylint: disable=wrong-import-position
import qpk.tshark  # noqa: E402 # pylint: disable=wrong-import-position
from program import PROGRAM, build  # noqa: E402 # pylint: disable=wrong-import-position
from qpk import capture  # noqa: E402 # pylint: disable=wrong-import-position
from running import assert_linear, run_tests, shows_no_fault_of_a_script  # noqa: E402 # pylint: disable=wrong-import-position

SCRIPT = TOP / "tool" / "qpk-capture"
ENVIRONMENT = {**os.environ, "QPK": str(PROGRAM)}
CLIENT, SERVER = ("10.0.0.1", "50000"), ("10.0.0.2", "443")
CAPTURED = TOP / "tests" / "captured"
KEPT = CAPTURED / "chromium.txt"
SECONDS = 120  # by the clock, in which a script ends on a machine that proves beside it
SETTINGS = "00 04 05 01 50 00 07 10"  # a control stream: capacity 4096, and 16 blocked streams


def field(name, show, inner=""):
    """Returns a field of a packet."""
    value = show.replace(" ", "") if name == "quic.stream_data" else ""
    return f'<field name="{name}" show="{show}" value="{value}">{inner}</field>'


def packet(time, source, target, *pieces, connection=0):
    """Returns a packet with pieces of streams: the stream, the offset, or none where it is 0, and the bytes."""
    fields = [field("frame.time_relative", time), field("ip.src", source[0]), field("ip.dst", target[0])]
    fields += [field("udp.srcport", source[1]), field("udp.dstport", target[1])]
    fields += [field("quic.connection.number", str(connection))]
    for stream, offset, data in pieces:
        fields += [field("quic.stream.stream_id", str(stream), field("quic.stream.direction", "0"))]
        fields += [field("quic.stream.offset", str(offset))] if offset else []
        fields += [field("quic.stream_data", data)]
    return f"<packet><proto name='quic'>{''.join(fields)}</proto></packet>"


def connections(*packets):
    """Returns the connections of packets."""
    pieces = qpk.tshark.read_pieces(io.BytesIO(f"<pdml>{''.join(packets)}</pdml>".encode()))
    return [qpk.tshark.connect(number, pieces[number]) for number in sorted(pieces)]


def lines(*packets):
    """Returns the lines of the one connection of packets."""
    (connection,) = connections(*packets)
    return connection.lines


def test_both_directions():
    """Each line has its time, and the mark of the end that sent it."""
    assert lines(
        packet("0.001234567", SERVER, CLIENT, (3, 0, SETTINGS)),
        packet("0.002", CLIENT, SERVER, (2, 0, "00 04 00"), (6, 0, "02 3f e1 1f"), (0, 0, "01 03 00 00 d1")),
        packet("0.003", SERVER, CLIENT, (11, 0, "03 80"), (0, 0, "01 03 00 00 d9 00 02 68 69")),
    ) == [
        "@0.001234 < s 4096 16",
        "@0.002 > s 0 0",
        "@0.002 > e 3fe11f",
        "@0.002 > b 0 0000d1",
        "@0.003 < d 80",
        "@0.003 < b 0 0000d9",
    ]


def test_pieces_come_in_any_order():
    """Bytes are taken in the order of the stream, once each, and a frame or a type may be cut anywhere."""
    assert lines(
        packet("1", CLIENT, SERVER, (6, 3, "1f 62 94")),
        packet("2", CLIENT, SERVER, (0, 0, "01"), (6, 0, "02")),
        packet("3", CLIENT, SERVER, (6, 1, "3f e1 1f 62"), (0, 4, "d1"), (0, 1, "03 00 00")),
    ) == ["@3 > e 3fe11f6294", "@3 > b 0 0000d1"]


def test_data_is_left_out():
    """The payload of DATA is passed over, also where it goes on in the next packets; a second section is read."""
    assert lines(
        packet("1", CLIENT, SERVER, (4, 0, "01 02 00 00 00 40 64"), (2, 0, "00")),
        packet("2", CLIENT, SERVER, (4, 7, "01" * 60)),
        packet("3", CLIENT, SERVER, (4, 67, "01" * 40 + "01 03 00 00 d1")),
    ) == ["@1 > b 4 0000", "@3 > b 4 0000d1"]


def test_pushes():
    """The push ID of a promise and of a push stream is left out."""
    assert lines(
        packet("1", SERVER, CLIENT, (0, 0, "05 04 07 00 00 d1"), (15, 0, "01 40")),
        packet("2", SERVER, CLIENT, (15, 2, "07 01 03 00 00 d9")),
    ) == ["@1 < b 0 0000d1", "@2 < b 15 0000d9"]


def test_other_streams_and_frames():
    """Streams and frames of other types have no lines."""
    assert not lines(
        packet("1", CLIENT, SERVER, (2, 0, "00 07 01 00 21 00"), (14, 0, "21 02 3f e1 1f"), (0, 0, "21 01 00")),
    )


def test_what_is_missing_is_reported():
    """A stream ends at bytes that the capture does not contain."""
    (connection,) = connections(packet("1", CLIENT, SERVER, (6, 0, "02 3f"), (6, 4, "62 94")))
    assert connection.lines == ["@1 > e 3f"]
    assert connection.missing == ["> stream 6: bytes from 2 to 4 are missing"]


def test_connections():
    """Connections are apart, and a capture that begins with the server knows who it is by its streams."""
    first, second = connections(
        packet("1", SERVER, CLIENT, (3, 0, SETTINGS), connection=0),
        packet("2", SERVER, CLIENT, (7, 0, "02 20"), connection=5),
        packet("3", CLIENT, SERVER, (2, 0, SETTINGS), connection=5),
    )
    assert (first.number, first.about) == (0, {"client": "10.0.0.1:50000", "server": "10.0.0.2:443"})
    assert second.name() == "connection 5, 10.0.0.1:50000 > 10.0.0.2:443"
    assert second.lines == ["@2 < e 20", "@3 > s 4096 16"]


def test_a_frame_that_ends_within_an_integer_is_refused():
    """SETTINGS that are cut are named."""
    try:
        lines(packet("1", SERVER, CLIENT, (3, 0, "00 04 01 41")))
    except capture.SourceError as error:
        assert str(error) == "stream 3 has a frame of type 4 that ends within an integer"
    else:
        raise AssertionError("it was read")


def test_a_frame_in_pieces():
    """The time is linear in the pieces, of a frame that is skipped, and of one that is kept. No piece is kept in vain."""
    piece = bytes(100)
    for head, is_kept in (("01a0000000", False), ("21a0000000", False), ("0180100000", True)):
        frames = qpk.streams.Frames()
        assert not list(frames.take(bytes.fromhex(head)))
        assert_linear(lambda size, frames=frames: [list(frames.take(piece)) for _ in range(size)], 1000)
        assert (frames.parts is not None) == is_kept and frames.left
    streams = qpk.streams.Streams()
    assert_linear(lambda size: list(streams.take(">", size, 0, b"\x21\x00" * size)), 20_000)


def test_a_section_that_is_too_long():
    """It is left out and reported, and what comes after it is read. A section of the most bytes is read."""
    most = qpk.streams.MOST_PAYLOAD
    for size, expected in ((most, [f"b 0 {bytes(most).hex()}", "b 0 0000d1"]), (most + 1, ["b 0 0000d1"])):
        streams, data = qpk.streams.Streams(), b"\x01" + (0x80000000 | size).to_bytes(4, "big") + bytes(size)
        pieces = [data[at : at + 65536] for at in range(0, len(data), 65536)] + [bytes.fromhex("01030000d1")]
        offsets = [sum(map(len, pieces[:at])) for at in range(len(pieces))]
        got = [it for at, piece in zip(offsets, pieces) for it in streams.take(">", 0, at, piece)]
        assert got == expected, [it[:20] for it in got]
        said = [f"> stream 0: frames that are longer than {most} bytes, which are left out: 1"]
        assert list(streams.gaps()) == (said if size > most else [])


def test_pieces_after_a_gap():
    """The time for many is linear, in either order, and they are read once the gap is closed."""
    for step in (1, -1):

        def fill(size):
            stream = qpk.streams.Stream(0)
            for offset in range(1, size + 1)[::step]:
                assert not stream.receive(offset, b"a")
            assert stream.receive(0, b"a") == b"a" * (size + 1) and not stream.pieces and not stream.waiting

        assert_linear(fill, 4000)


def test_too_much_after_a_gap():
    """More bytes than a stream keeps after a gap end it there, and none of them is kept."""
    most, streams = qpk.streams.MOST_WAITING, qpk.streams.Streams()
    for offset in range(10, most + 10, 1 << 20):
        assert not list(streams.take("<", 0, offset, bytes(1 << 20)))
    assert list(streams.gaps()) == ["< stream 0: bytes from 0 to 10 are missing"]
    assert not list(streams.take("<", 0, most + 10, b"a"))
    assert not streams.streams["<", 0].pieces
    assert not list(streams.take("<", 0, 0, bytes(10)))
    assert list(streams.gaps()) == [f"< stream 0: bytes from 0 on are left out: more than {most} came after a gap there"]


def test_values_of_another_kind():
    """A field of a packet that is no number, no time or no hexadecimal is refused in a line, with its packet."""
    good = packet("1", CLIENT, SERVER, (0, 0, "01 03 00 00 d1"))
    for wrong in (
        packet("1", CLIENT, SERVER, (0, 0, "0g")),
        packet("1", CLIENT, SERVER, ("x", 0, "00")),
        packet("1", CLIENT, SERVER, ("9" * 5000, 0, "00")),
        packet("1", CLIENT, SERVER, (0, "x", "00")),
        packet("1", CLIENT, SERVER, (0, 0, "00"), connection="x"),
        packet("1&#10;> b 4 0000", CLIENT, SERVER, (0, 0, "00")),
        packet("now", CLIENT, SERVER, (0, 0, "00")),
    ):
        status, output, said = ask("show", "--pdml", "-", data=f"<pdml>{good}{wrong}</pdml>".encode())
        assert (status, output) == (1, b"") and said.count(b"\n") == 1, said
        assert said.startswith(b"qpk-capture: packet 2 of what tshark printed has a value of another kind: "), said


def test_names_on_a_terminal():
    """Control characters in a name, an address, a title or a line of a recording are not printed as they are."""
    marks = "\x1b[31m\x9b\u202e\n"
    in_xml = "".join(f"&#{ord(it)};" for it in marks if it != "\x1b")  # which XML can't have
    pdml = f"<pdml>{packet('1', (in_xml, '1'), SERVER, (0, 0, '01 03 00 00 d1'))}</pdml>"
    event = {"name": "qpack:headers_encoded", "data": {"stream_id": 0, "raw": "0000d1"}, "group_id": marks}
    trace = json.dumps({"traces": [{"title": marks, "events": [event]}]})
    for words, data in (
        (("show", marks), ""),
        (("show", "--keys", marks, CAPTURED / "chromium.pcapng"), ""),
        (("show", marks, marks), ""),
        (("show", "--connection", marks), ""),
        (("lines", "--pdml", "-"), pdml),
        (("show", "--pdml", "-"), pdml),
        (("lines", "-"), trace),
        (("show", "-"), trace),
        (("show", "--json", "-"), trace),
        (("show", "--stream", "0", "-"), f"{marks} b 4 0000d1\n"),
    ):
        status, output, said = ask(*words, data=data.encode())
        assert (status == 1) == (not output) and (output or said), words
        assert shows_no_fault_of_a_script(output) and shows_no_fault_of_a_script(said), (words, output, said)
        assert "\u202e" not in (output + said).decode(), (words, output, said)


def test_files_after_two_minuses():
    """After -- a word is a file, whatever it begins with; a minus is standard input there too."""
    with tempfile.TemporaryDirectory() as room:
        for name in ("-x", "--json", "--"):
            (Path(room) / name).write_text("b 4 0000d1\n", encoding="utf-8")
            assert ask("show", "--", name, cwd=room) == ask("show", name, cwd=room, before="./"), name
            assert ask("show", "--stream", "4", "--", name, cwd=room)[0] == 0
        assert ask("show", "--", "-", data=b"b 4 0000d1\n", cwd=room)[1].startswith(b"section 4")
        status, output, said = ask("show", "-", "--", "-x", cwd=room)
        assert (status, output) == (1, b"") and b"name one file" in said


def test_the_end_of_the_reader():
    """If the reader of the output ends, the script ends by SIGPIPE and says nothing; it says that it is interrupted."""
    with tempfile.TemporaryDirectory() as room:
        path = Path(room) / "long"
        path.write_text("b 4 0000d1\n" * 20_000, encoding="utf-8")
        for words in (("show", path), ("show", "--stream", 4, path), ("lines", path), ("show", "--qlog", path)):
            with start(*words, stdout=subprocess.PIPE) as running:
                running.stdout.close()
                assert running.stderr.read() == b"", words
            assert running.returncode == -signal.SIGPIPE, words
    # What a shell began in the background ignores an interrupt, and so does what that starts.
    heed = {"preexec_fn": lambda: signal.signal(signal.SIGINT, signal.SIG_DFL)}
    with start("show", "-", stdin=subprocess.PIPE, **heed) as running:
        while "pipe_read" not in Path(f"/proc/{running.pid}/wchan").read_text() and running.poll() is None:
            time.sleep(0.01)
        running.send_signal(signal.SIGINT)
        assert running.stderr.read() == b"qpk-capture: interrupted\n"
    assert running.returncode == -signal.SIGINT


def test_standard_streams_that_are_closed():
    """Each is reported in a line."""
    for words, to, reason in (
        ("show -", "<&-", "refused: input: standard input is closed"),
        (f"show {KEPT}", ">&-", "refused: output: standard output is closed"),
        (f"show {KEPT}", ">/dev/full", "No space left on device: name another file, or make room there"),
    ):
        ran = subprocess.run(["sh", "-c", f"{SCRIPT} {words} {to}"], env=ENVIRONMENT, capture_output=True, check=False)
        assert (ran.returncode, ran.stderr.decode()) == (1, f"qpk-capture: {reason}\n"), words


def test_memory_that_ends():
    """It is reported in a line."""
    with tempfile.TemporaryDirectory() as room:
        path = Path(room) / "large"
        path.write_text("b 4 0000d1\n" * 3_000_000, encoding="utf-8")
        command = f"ulimit -v 60000; exec {SCRIPT} show --qlog {path}"
        ran = subprocess.run(["sh", "-c", command], env=ENVIRONMENT, capture_output=True, check=False)
        assert ran.returncode == 1 and ran.stderr.startswith(b"qpk-capture: refused: memory: "), ran.stderr


def test_mutated_inputs():
    """Recordings, traces and what tshark prints, with bytes changed, cut, added and moved: no traceback, no control byte.

    Each ends in ten seconds, with one of the statuses. Some of each kind are read, and some are refused.
    """
    qlog = [(TOP / "tests" / "qlog" / it).read_bytes() for it in ("client.qlog", "server.sqlog", "forerunner.qlog")]
    nested = json.dumps({"traces": "@"}).replace('"@"', "[" * 50_000).encode()
    pieces = [(2, 0, SETTINGS), (6, 0, "02 3f e1 1f"), (0, 0, "01 03 00 00 d1"), (0, 5, "00 02 68 69")]
    pdml = f"<pdml>{''.join(packet(str(at), CLIENT, SERVER, it) for at, it in enumerate(pieces))}</pdml>".encode()
    kinds = [(("show", "-"), [KEPT.read_bytes()]), (("show", "-"), [*qlog, nested]), (("show", "--pdml", "-"), [pdml])]
    if shutil.which("tshark"):
        kinds.append((("show", "FILE"), [(CAPTURED / "chromium.pcapng").read_bytes()]))
    for seed, (words, inputs) in enumerate(kinds):
        choice, seen = random.Random(seed), set()
        for _ in range(8 if "FILE" in words else 65):
            data = mutated(choice, choice.choice(inputs))
            status, output, said = ask_fork(words, data)
            assert status in (0, 1, 2), (seed, status, said)
            assert shows_no_fault_of_a_script(output) and shows_no_fault_of_a_script(said), (seed, data, output, said)
            seen.add(status)
        assert {0, 1} <= seen, (seed, seen)


def mutated(choice, data):
    """Returns bytes with some of them changed."""
    data = bytearray(data)
    for _ in range(choice.randrange(1, 4)):
        at, size = choice.randrange(len(data)), choice.randrange(1, 40)
        kind = choice.randrange(5)
        if kind == 0:
            data[at] = choice.randrange(256)
        elif kind == 1:
            data[at:at] = choice.choice(
                [b"\x1b[31m", b"\xff\xfe", b"null", b"-1", b"1e999", b"\xc2\x9b", b'"', b"\n", b"9" * 5000]
            )
        elif kind == 2:
            del data[at : at + size]
        elif kind == 3:
            data[at:at] = data[choice.randrange(len(data)) :][:size]
        else:
            del data[choice.randrange(len(data) // 2, len(data)) :]
    return bytes(data)


def ask_fork(words, data):
    """Returns the answer of the script to words on an input, in a fork of this process, which ends in ten seconds.

    The word FILE is the name of a file with the input.
    """
    with tempfile.NamedTemporaryFile() as file, tempfile.TemporaryFile() as output, tempfile.TemporaryFile() as said:
        file.write(data)
        file.seek(0)
        child = os.fork()
        if not child:
            signal.alarm(10)
            for number, it in enumerate((file, output, said)):
                os.dup2(it.fileno(), number)
            answer_and_exit(*(file.name if it == "FILE" else it for it in words))
        _, status = os.waitpid(child, 0)
        output.seek(0)
        said.seek(0)
        return (-1 if os.WIFSIGNALED(status) else os.WEXITSTATUS(status)), output.read(), said.read()


def answer_and_exit(*words):
    """Has the script answer words, and ends this process with its status."""
    status = 70
    try:
        sys.stdin, sys.stdout, sys.stderr = open(0), open(1, "w"), open(2, "w")  # pylint: disable=all
        sys.argv = [str(SCRIPT), *words]
        os.environ.update(ENVIRONMENT)
        status = capture.run("qpk-capture", capture.answer)
    except SystemExit as end:
        status = end.code
    except BaseException:  # pylint: disable=broad-except # a fault of the script, which the test finds by its status
        traceback.print_exc()
    sys.stderr.flush()
    os._exit(status)


def test_one_stream():
    """Of what qpk prints, the lines about a stream are kept, with those below them."""
    text = (
        "0.1 > encoder 0: set capacity 64\n  0 of 64 bytes\n0.2 > section 4: required insert count 0, base 0\n"
        "  2 static 17, :method: GET\n0.3 > section 44: blocked until insertion 1\n0.4 < decoder 0: acknowledge stream 4\n"
        "0.5 < decoder 1: cancel stream 44\n0.6 < stream 4: given up\n"
    )
    kept = b"".join(capture.of_stream(io.BytesIO(text.encode()), 4)).decode().splitlines()
    assert [it[:12] for it in kept] == ["0.2 > sectio", "  2 static 1", "0.4 < decode", "0.6 < stream"]
    objects = '{"line":1,"section":4}\n{"line":2,"encoder":0}\n{"line":3,"decoder":0,"stream":4}\n{"line":4,"section":44}\n'
    kept = b"".join(capture.of_stream(io.BytesIO(objects.encode()), 4)).decode()
    assert kept == '{"line":1,"section":4}\n{"line":3,"decoder":0,"stream":4}\n'


def start(*words, before="", **more):
    """Starts the script, over the program that answers at once."""
    *words, last = map(str, words)
    pipes = {"stdout": subprocess.PIPE, "stderr": subprocess.PIPE, "env": ENVIRONMENT, **more}
    return subprocess.Popen([SCRIPT, *words, f"{before}{last}"], **pipes)


def ask(*words, data=b"", **more):
    """Returns the status of the script on an input, what it prints, and what it says. It must end."""
    with start(*words, stdin=subprocess.PIPE, **more) as running:
        output, said = running.communicate(data, timeout=SECONDS)
    return running.returncode, output, said


def run(*words):
    """Returns what a program prints, which ends with status 0."""
    return subprocess.run([*map(str, words)], stdout=subprocess.PIPE, encoding="utf-8", check=True).stdout


def logged(fields):
    """Returns the fields that qpk shows as Chromium logs them."""
    return sorted(f"{field['name']}: {field['value']}" for field in fields)


def test_files_that_are_missing():
    """A capture, a key log or a file of tshark that is not there gets one line, which names it."""
    keys = [CAPTURED / "chromium.pcapng", "--keys", "nowhere.log"]
    for words in (["nowhere.pcapng", "--keys", KEPT], keys, ["--pdml", "nowhere.pdml"]):
        command = [TOP / "tool" / "qpk-capture", "show", *words]
        ran = subprocess.run([*map(str, command)], stdout=subprocess.PIPE, stderr=subprocess.PIPE, encoding="utf-8")
        name = next(it for it in map(str, words) if it.startswith("nowhere"))
        assert (ran.returncode, ran.stdout) == (1, "")
        assert ran.stderr == f"qpk-capture: {name} is not a file that can be read\n"


def show_by(tshark):
    """Has qpk-capture show a capture by a script in the place of tshark, and returns its status and what it says."""
    with tempfile.TemporaryDirectory() as room:
        program, capture = Path(room) / "tshark", Path(room) / "a.pcapng"
        program.write_text(f"#!/bin/sh\n{tshark}\n", encoding="utf-8")
        program.chmod(0o755)
        capture.write_bytes(bytes.fromhex("0a0d0d0a"))
        variables = {"TSHARK": str(program)}
        command = [str(TOP / "tool" / "qpk-capture"), "show", "--by", "tshark", str(capture)]
        pipes = {"stdout": subprocess.PIPE, "stderr": subprocess.PIPE, "encoding": "utf-8"}
        ran = subprocess.run(command, env={**os.environ, **variables}, timeout=SECONDS, check=False, **pipes)
        return ran.returncode, re.sub(r"/\S*\.pcap\b", "a.pcap", ran.stderr)


def test_what_tshark_says():
    """It may be more than a pipe takes. Its last line is passed on if tshark can't read the capture."""
    much = "yes 'a warning' | head -n 100000 >&2"
    none = "it has no stream that can be read: are the secrets of its connections in the key log?"
    assert show_by(f"{much}; echo '<pdml></pdml>'") == (1, f"qpk-capture: {none}\n")
    said = "qpk-capture: tshark can't read a.pcap: it is cut short\n"
    assert show_by(f"{much}; echo 'it is cut short' >&2; exit 2") == (1, said)
    assert show_by("echo '<pdml></pdml>'; echo 'it is cut short' >&2; exit 2") == (1, said)
    assert show_by("echo '<pdml>'")[1].startswith("qpk-capture: what tshark printed is no PDML: ")


def test_chromium_by_tshark():
    """The lines of the capture are those that are kept."""
    if shutil.which("tshark"):
        assert run(TOP / "tool" / "qpk-capture", "lines", CAPTURED / "chromium.pcapng") == KEPT.read_text("utf-8")


def test_chromium():
    """Each list of fields is that of Chromium's log, and nothing is wrong."""
    lists = {"client": {}, "server": {}}
    for line in run(TOP / "qpk", "show", "--json", KEPT).splitlines():
        it = json.loads(line)
        if "lines" in it:
            lists[it["from"]][str(it["section"])] = logged(it["lines"])
    expected = json.loads((CAPTURED / "chromium.json").read_text("utf-8"))
    assert lists == {end: {stream: sorted(log) for stream, log in own.items()} for end, own in expected.items()}
    assert sum(map(len, lists.values())) == 18
    run(TOP / "qpk", "check", KEPT)


def main():
    """Runs all tests, over the program of dist/ if that can be built."""
    build()
    return run_tests(globals(), "captures", "tool/qpk-capture")


if __name__ == "__main__":
    sys.exit(main())
