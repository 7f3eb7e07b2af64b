#!/usr/bin/env python3
"""Tests qpk strip, qpk tune, qpk show --follow, and qpk explain of a packet, by tool/qpk-capture.

    tool/tests/habits.py

Without libcrypto nothing is tested. It ends with a line 'habits: N tests .. passed', and with status 1 if a test failed.
"""
import json
import random
import re
import shutil
import signal
import subprocess
import sys
import tempfile
import threading
import time
from pathlib import Path

from captures import CAPTURED, ENVIRONMENT, KEPT, SCRIPT, ask, ask_fork, mutated
from connections import file_of, made, read, run_with_libcrypto
from program import PROGRAM
from running import TOP, assert_linear, shows_no_fault_of_a_script

# These are in tool/, which captures.py puts into the path of modules, as it does tests/.
import qpk.follow
import qpk.huffman
import qpk.strip
import qpk.tune
from qpk.streams import Connection

BUILT = tempfile.TemporaryDirectory()  # the library of dist/, if there is a compiler
INSERT = "3fe11f6294e7838c767f"  # the capacity 4096, and the insertion of foo: bar


# ---- strip


def shown(text):
    """Returns what qpk show prints of a recording, an object a line."""
    ran = subprocess.run([PROGRAM, "show", "--json", "-"], input=text, capture_output=True, check=False)
    return [json.loads(it) for it in ran.stdout.splitlines()]


def fields_of(it):
    """Yields the fields with their own bytes in an object of qpk show: not those that are a line's of a table."""
    if it.get("instruction") == "insert":
        yield it["name"], it["value"]
    for line in it.get("lines", ()):
        if line["form"]["type"] == "literal" and "value" in line:
            yield line["name"], line["value"]


def values_of(objects):
    """Returns the values that are in the bytes of a recording."""
    return [json.dumps(value) for it in objects for _, value in fields_of(it)]


def test_the_huffman_code():
    """Each byte has the code that the program gives it, and strings come back; bits that are no padding are refused."""
    order = [it for it in range(256) if it != 0x0A]
    lists = b"".join(b"a\t" + bytes([it, it, it]) + b"\n\n" for it in order)
    ran = subprocess.run([PROGRAM, "encode", "--qif", "0", "0", "0"], input=lists, capture_output=True, check=True)
    at, found = 0, []
    while at < len(ran.stdout):
        size = int.from_bytes(ran.stdout[at + 8 : at + 12], "big")
        if int.from_bytes(ran.stdout[at : at + 8], "big"):
            found.append(ran.stdout[at + 12 : at + 12 + size])
        at += 12 + size
    for it, section in zip(order, found):
        coded = qpk.huffman.encode(bytes([it, it, it]))
        assert section.endswith(bytes([0x80 | len(coded)]) + coded), (it, section.hex())
    for seed in range(500):
        data = bytes(random.Random(seed).choices(range(256), k=seed % 40))
        assert qpk.huffman.decode(qpk.huffman.encode(data)) == data
    for data in (b"\xff", b"\0", b"\xff\xff\xff\xff", b"\x1e"):
        assert qpk.huffman.decode(data) is None, data
    for size in range(1, 60):
        for data in (qpk.strip.broken(bytes(size)), qpk.strip.broken(b"\xff" * size)):
            assert qpk.huffman.decode(data) is None and qpk.huffman.has_end(data) == (size > 3 and data[0] == 0xFF), data


def test_lengths_of_values():
    """A value becomes another one of the same length, and of the same when it is coded. Equal ones become equal."""
    values = qpk.strip.Values(b"key")
    seen = {}
    for seed in range(2000):
        choice = random.Random(seed)
        data = choice.choice((bytes(range(256)), b"abcdefgh0123456789", b"^{}<`\\\0")) if seed % 3 else b"abc/=%20"
        value = bytes(choice.choices(data, k=choice.randrange(30)))
        other = values.other(value)
        assert len(other) == len(value) and len(qpk.huffman.encode(other)) == len(qpk.huffman.encode(value)), value
        assert seen.setdefault(value, other) == other and (len(value) < 4 or other != value)
    longer = [it for it in seen.values() if len(it) > 5]
    assert len(set(longer)) == len(longer)
    again = qpk.strip.Values(b"other key")
    assert sum(again.other(it) == seen[it] for it in seen if len(it) > 5) == 0


def test_stripped_recordings():
    """check says the same byte for byte, names, indexes and places stay, and no value of before is there."""
    sources = [KEPT] + [CAPTURED / f"{it}.pcapng" for it in ("firefox", "ngtcp2-gso")]
    for path in sources:
        before = ask("lines", path)[1].partition(b"\n")[2] if path.suffix == ".pcapng" else path.read_bytes()
        status, output, said = ask("strip", path)
        assert status == 0 and b"values became others" in said, said
        for command in ("check", "show"):
            one, other = (
                subprocess.run([PROGRAM, command, "-"], input=it, capture_output=True, check=False) for it in (before, output)
            )
            assert one.returncode == other.returncode and (command == "show" or one.stdout == other.stdout), path
        own, others = shown(before), shown(output)
        if path.suffix == ".pcapng":  # whose first line is a comment
            assert [qpk.strip.without_values(it) for it in own] == [qpk.strip.without_values(it) for it in others]
        values = values_of(own)
        assert values and len(values) == len(values_of(others))
        pairs = set(zip(values, values_of(others)))
        assert len(pairs) == len({it for it, _ in pairs}) == len({it for _, it in pairs}), path
        text = json.dumps(others)
        assert not [it for it in set(values) if len(it) > 8 and it in text], path
        assert ask("strip", path)[1] != output and ask("strip", "--seed", "a", path)[1] == ask("strip", "--seed", "a", path)[1]


def test_stripped_faults():
    """Each kind of fault stays the same, and what is behind it is not readable."""
    secret = "5363726574"  # Secret without its e
    for lines in (
        f"# {secret}\n> b 4 0000ff24510a{secret}\n",
        f"> e {INSERT}\n> e 0561{secret}05{secret}\n> b 4 0380\n",
        f"> b 4 00002605{secret}{secret}\n> b 8 0000510a{secret}\n",
        f"> b 4 00005105{secret}51ffffffffffffffffffffff{secret}\n",
        "> b 4 0000518100\n> b 8 0000518500000000ff\n> b 12 00005185ffffffffff\n> b 16 000051820707\n",
        f"> e 3fe11f\n> e 4161c5{secret}\n> e 00\n> b 4 0200{secret}80\n",
        f"> b 4 020027{secret}{secret}0561{secret}\n> e {INSERT}\n",
        f"> b 4 00002b5365637265740a0d01{secret[:2]}05{secret}\n",
        f"@{'x' * 9} < s 4096 4\n> e 3fe11f{INSERT[6:]}\n> b 4 0200d1\n< d 8484\n< c 4\n> e 4161{secret[:1]}",
    ):
        data = lines.encode()
        status, output, said = ask("strip", "-", data=data)
        assert status == 0, (lines, said)
        one, other = (
            subprocess.run([PROGRAM, "check", "-"], input=it, capture_output=True, check=False) for it in (data, output)
        )
        assert (one.returncode, one.stdout, one.stderr) == (other.returncode, other.stdout, other.stderr), (lines, output)
        assert secret.encode() not in output and b"Scret" not in output, (lines, output)
        assert output.count(b"\n") == data.count(b"\n") and len(output) <= len(data)


def test_hostile_recordings_to_strip():
    """With bytes changed a recording is stripped so that check says the same, or a line says why not."""
    text = KEPT.read_bytes()[:3000]
    seen = set()
    for seed in range(30):
        data = mutated(random.Random(seed), text)
        status, output, said = ask_fork(("strip", "--seed", "a", "-"), data)
        assert status in (0, 1) and shows_no_fault_of_a_script(said), (seed, status, said)
        if status == 0:
            one, other = (
                subprocess.run([PROGRAM, "check", "-"], input=it, capture_output=True, check=False) for it in (data, output)
            )
            assert one.stdout == other.stdout, seed
        else:
            assert output == b"" and said.startswith(b"qpk-capture: "), (seed, said)
        seen.add(status)
    assert seen == {0, 1}
    assert_linear(
        lambda size: list(qpk.strip.strip_lines(["> b 4 00005105" + "6162636465" * 9] * size, qpk.strip.Values(b""))), 400
    )


def test_words_of_strip():
    """A capture with several connections needs the number of one, and options that strip has not are refused."""
    status, output, said = ask("strip", CAPTURED / "ngtcp2-update.pcapng")
    assert (status, output) == (1, b"") and b"it has the connections 0, 1, 2: name one by --connection" in said
    assert ask("strip", "--connection", "1", CAPTURED / "ngtcp2-update.pcapng")[0] == 0
    for word in ("--json", "--qif", "--table"):
        assert (
            ask("strip", word, KEPT)[:2] == (1, b"")
            and f"{word} is not a word of strip".encode() in ask("strip", word, KEPT)[2]
        )
    for command in ("strip", "tune"):
        status, output, said = ask(command, "--help")
        assert (status, said) == (0, b"") and output.startswith(f"usage: qpk {command} ".encode())


# ---- tune


def test_advice():
    """The smallest capacity above which no other saves one part in a hundred is chosen, for the end that decodes."""
    tried = [{"capacity": at, "bytes": size} for at, size in ((0, 1000), (256, 700), (4096, 505), (16384, 500), (65536, 520))]
    counted = {"from": "client", "sections": 10, "section_bytes": 300, "encoder_stream_bytes": 250, "blocked_sections": 2}
    lines = list(qpk.tune.advise({**counted, "tried": tried}))
    assert lines[0] == "the client: 10 lists took 550 bytes, sections and encoder stream"
    assert [it.endswith("  <") for it in lines[1:6]] == [False, False, True, False, False]
    assert lines[6] == "  set SETTINGS_QPACK_MAX_TABLE_CAPACITY to 4096 at the server, which decodes them."
    assert "saves 495 of the 1000 bytes" in lines[7] and lines[8].startswith("  2 of the 10 sections waited.")
    lines = list(
        qpk.tune.advise({**counted, "from": "", "tried": [{"capacity": 0, "bytes": 9}, {"capacity": 256, "bytes": 12}]})
    )
    assert (
        lines[-2]
        == "  set SETTINGS_QPACK_MAX_TABLE_CAPACITY to 0 at the peer, which decodes them: a table saves less than 1 %."
    )
    assert "nothing to encode again" in list(qpk.tune.advise({**counted, "sections": 0, "tried": tried}))[1]


def test_tune():
    """Where the library is, the bytes are those of stats --try; else a line says what to do."""
    status, output, said = ask("tune", KEPT)
    if status:
        assert (status, output) == (1, b"") and said.startswith(
            b"qpk-capture: tune encodes by the library, which is not there"
        ), said
        print("not shown: qpk tune, without a C compiler and make")
        return
    capacities = ",".join(map(str, qpk.tune.CAPACITIES))
    words = [SCRIPT.parent / "qpk-report", "stats", "--try", capacities, KEPT]
    stats = subprocess.run(words, capture_output=True, env=ENVIRONMENT, encoding="utf-8", check=True).stdout
    expected = re.findall(r"encoded again at capacity (\d+): (\d+) bytes", stats)
    assert re.findall(r"capacity +(\d+) +(\d+) bytes", output.decode()) == expected and len(expected) == 20
    status, output, said = ask("tune", CAPTURED / "ngtcp2-update.pcapng", "--connection", 1)
    assert status == 0 and output.startswith(b"connection 1\nthe client: "), (output, said)
    entry = {"request": {"url": "https://a.example/", "headers": [{"name": "Accept", "value": "text/html"}]}}
    status, output, said = ask("tune", "-", data=json.dumps({"log": {"entries": [entry] * 9}}).encode())
    assert output.startswith(b"connection 0, a.example\nthe client: 9 lists have 135 bytes of names and values\n"), (
        output,
        said,
    )
    assert (status, output.count(b" a list")) == (0, len(qpk.tune.CAPACITIES)), output


# ---- explain


def test_a_packet():
    """What each packet of a made connection brought: the lines of show, and the bytes as explain has them."""
    connection = made()
    data = file_of(connection)
    (found,) = read(data)
    with tempfile.NamedTemporaryFile(suffix=".pcapng") as file:
        file.write(data)
        file.flush()
        show = ask("show", file.name)[1].decode().splitlines()
        rows = 0
        for line, packet in list(zip(found.lines, found.packets))[:9]:
            status, output, said = ask("explain", file.name, f"#{packet}")
            lines = output.decode().splitlines()
            assert (status, said) == (0, b"") and lines[0].startswith("connection 0, "), said
            bits = [it for it in lines if re.match(r" +\d+  [0-9a-f]{2}  ", it)]
            rows += len(bits)
            kind = line.split()[2]
            assert kind != "s" or not bits and " settings: maximum capacity " in lines[1], lines
            if kind == "b":
                assert "".join(it.split()[1] for it in bits) == line.split()[-1], (line, lines)
            own = [it for it in lines[1:] if it not in bits and not it.endswith(", its bits:")]
            assert all(it in show for it in own), own
        assert rows > 200
        for word, reason in (
            ("#1", b"packet #1 made nothing of QPACK whole: near it are #"),
            ("#0", b"name one file"),
            ("#x", b""),
        ):
            status, output, said = ask("explain", file.name, word)
            assert (status, output) == (1, b"") and reason in said, (word, said)
    status, _, said = ask("explain", KEPT, "#2")
    assert status == 1 and b"its lines have no packets" in said, said


def test_an_instruction_in_pieces():
    """An instruction that two packets bring is explained whole with the second one, and the first one says so."""
    from sealed import Made  # pylint: disable=import-outside-toplevel

    lines = ["@0 < s 4096 0", "@0 > s 0 0", f"@0 > e {INSERT[:12]}", f"@0 > e {INSERT[12:]}00"]
    connection = Made().begin().take(lines, acknowledge=0)
    begin, data = len(connection.datagrams) - len(lines), file_of(connection)
    with tempfile.NamedTemporaryFile(suffix=".pcapng") as file:
        file.write(data)
        file.flush()
        first = ask("explain", file.name, f"#{begin + 3}")[1].decode().splitlines()
        assert first[1].endswith("> encoder 0: set capacity 4096") and [it for it in first if "3fe11f" in it] == [], first
        second = ask("explain", file.name, f"#{begin + 4}")[1].decode().splitlines()
    assert (
        second[1].endswith("> encoder 3: insert as entry 1, foo: bar")
        and "> encoder stream from byte 3 on, its bits:" in second
    )
    assert sum(it.startswith("   ") for it in second) == 8, second


# ---- show --follow


def take_interrupts():
    """Has an interrupt end this process, also where its parent ignores that."""
    signal.signal(signal.SIGINT, signal.default_int_handler)


def test_a_recording_that_grows():
    """Each line is printed once it is whole, and all is what show prints of the whole; Ctrl-C ends it quietly."""
    text = KEPT.read_bytes()
    with tempfile.TemporaryDirectory() as room:
        path = Path(room) / "recording"
        path.write_bytes(b"")
        words = [SCRIPT, "show", "--follow", path]
        pipes = {"stdout": subprocess.PIPE, "stderr": subprocess.PIPE, "env": ENVIRONMENT, "preexec_fn": take_interrupts}
        with subprocess.Popen([*map(str, words)], **pipes) as running:
            for begin in range(0, len(text), 3000):
                with open(path, "ab") as file:
                    file.write(text[begin : begin + 3000])
                time.sleep(0.3)
            expected = subprocess.run([PROGRAM, "show", "-"], input=text, capture_output=True, check=True).stdout
            output, until = b"", time.time() + 60
            while len(output) < len(expected) and time.time() < until:
                output += running.stdout.read1(1 << 20)
            running.send_signal(signal.SIGINT)
            end = threading.Timer(60, running.kill)  # of a script that goes on
            end.start()
            rest, said = running.communicate()
            end.cancel()
        assert (running.returncode, output + rest, said) == (0, expected, b"")


def test_what_is_new():
    """What the end of the input makes is not printed; what SETTINGS change is shown again; connections are named."""
    printed = []
    follower = qpk.follow.Follower(str(PROGRAM), [], lambda data: [Connection(0, {}, data=data)])
    parts = [b"b 4 028010\ne 3fe11f62\n", b"e 94e7838c767f00\n", b"b 8 0000d1\n"]
    whole = b""
    for part in parts:
        whole += part
        follower.print_new(whole, printed.append)
    shown_at_once = subprocess.run([PROGRAM, "show", "-"], input=whole, capture_output=True, check=True).stdout
    assert b"".join(printed) == shown_at_once, printed
    printed.clear()
    follower.print_new(b"s 64 0\n" + whole, printed.append)
    assert b"".join(printed).startswith(b"settings: maximum capacity 64, blocked streams 0\n"), printed
    several = [[Connection(it, {"log": "x"}, [f"> b {4 * it} 0000d1"] * count) for it in range(2)] for count in (1, 2)]
    follower = qpk.follow.Follower(str(PROGRAM), [], lambda data: several[int(data)])
    printed.clear()
    for count in (b"0", b"1"):
        follower.print_new(count, printed.append)
    assert [it for it in b"".join(printed).split(b"\n") if it.startswith(b"connection")] == [
        b"connection 0, x",
        b"connection 1, x",
        b"connection 0, x",
        b"connection 1, x",
    ]


def test_words_of_follow():
    """It reads a file by its name, and no capture's options; a file that is too long is refused."""
    for words in (
        ("--follow", "-"),
        ("--follow", "--qlog", KEPT),
        ("--follow", "--stream", "4", KEPT),
        ("--follow", "--qif", KEPT),
    ):
        status, output, said = ask("show", *words)
        assert (status, output) == (1, b"") and b"--follow" in said, said
    assert b"is not a file" in ask("show", "--follow", "/nowhere")[2]
    assert ask("check", "--follow", KEPT)[0] == 1
    with tempfile.NamedTemporaryFile() as file:
        file.truncate(qpk.follow.MOST + 1)
        status, output, said = ask("show", "--follow", file.name)
        assert (status, output) == (1, b"") and b"to which it is followed" in said, said


def main():
    """Builds the library, and runs all tests."""
    if shutil.which("cc") and shutil.which("make"):
        subprocess.run(["make", "-s", "-C", str(TOP / "dist"), f"BUILD={BUILT.name}"], check=True)
        ENVIRONMENT["H3_QPACK_LIBRARY"] = f"{BUILT.name}/libh3_qpack.so.0"
    return run_with_libcrypto(globals(), "habits")


if __name__ == "__main__":
    sys.exit(main())
