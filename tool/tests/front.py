#!/usr/bin/env python3
"""Tests tool/qpk-front, as ./qpk and make -C dist install have it: files, colours, and that the rest is the program's.

    tool/tests/front.py

It installs dist/ and tool/ in a folder for temporary files, by make and a C compiler. Without these nothing is tested, and the
last line says so. ./qpk is left out if the sources were changed. Else it ends with a line 'front: N tests .. passed',
and with status 1 if a test failed.
"""
import os
import re
import shutil
import signal
import subprocess
import sys
import tempfile
import time
from pathlib import Path

sys.path.insert(0, str(Path(__file__).resolve().parents[2] / "tests"))
from running import (
    TOP,
    answers_at_once,
    are_linear,
    can_decrypt,
    cost_of,
)  # noqa: E402 # pylint: disable=wrong-import-position
from running import install, missing_tool, on_terminal, run_tests  # noqa: E402 # pylint: disable=wrong-import-position
from running import shows_no_fault_of_a_script  # noqa: E402 # pylint: disable=wrong-import-position

FOLDER = tempfile.TemporaryDirectory(prefix="h3-qpack-front-")  # which ends with the script
ROOM = Path(FOLDER.name)
INSTALLED = ROOM / "usr" / "bin" / "qpk"
LIBEXEC = ROOM / "usr" / "lib" / "h3_qpack"
PROGRAM = LIBEXEC / "dist" / "qpk"
FRONTS = (TOP / "qpk", INSTALLED) if answers_at_once() else (INSTALLED,)
CHROMIUM = TOP / "tests" / "captured" / "chromium.txt"
BOLD, DIM, RED, YELLOW, PLAIN = (f"\x1b[{it}m" for it in (1, 2, 31, 33, 0))
MARKS = re.compile(rb"\x1b\[\d+m")


def literal(name, value):
    """Returns a line of a section, in hexadecimal."""
    return (bytes([0x20 | len(name)]) + name + bytes([len(value)]) + value).hex()


def insertion(name, value):
    """Returns an insertion, in hexadecimal."""
    return (bytes([0x40 | len(name)]) + name + bytes([len(value)]) + value).hex()


# A recording with everything that has a colour, and names and values that look like it.
FAULTS = f"""
@12:00:01.5 > s 0 0
@12:00:02 < s 4096 1
> b 4 028010
> b 8 028010
> b 12 0000ff24
> e 3fe11f6294e7838c767f
> b 16 0000d1 {literal(b'a,b', b'refused in input line 1: x')} {literal(b'c:', b'blocked until insertion 3')}
> e {insertion(b'd,', b'x as entry 9, e: f')}
> e {insertion(b'refused', b'in input line 1: x')} 80
> b 20 0a81 10
< d 84 84
< d 00
> b 24 ff00
> e ff
"""


def run(*words, data="", **more):
    """Runs a program on an input, and returns its status, its output and what it said."""
    ran = subprocess.run([*map(str, words)], input=data.encode(), capture_output=True, check=False, **more)
    return ran.returncode, ran.stdout, ran.stderr


def write(name, text):
    """Writes a file in the room, and returns its path."""
    path = ROOM / name
    path.write_text(text)
    return path


def test_the_rest_is_of_the_program():
    """Words, input, output and status of all other commands, to the byte."""
    cases = [
        ((), ""),
        (("encode",), ":method\tGET\n"),
        (("encode", "x"), ""),
        (("encode", "--qif", "64", "1", "1"), "a\tb\n"),
        (("decode", "42"), "0000d1\n"),
        (("decode", "41"), "0000d1\n"),
        (("decode", "--color=always", "42"), "0000d1\n"),
        (("decode", "--json", "42"), "0000ff24"),
        (("inspect", "4096"), "e\t6294e7838c767f01\n"),
        (("run", "4096", "1"), "encode\t4\tfoo\tbar\n"),
        (("help", "decode"), ""),
        (("show", "--help", "x"), ""),
        (("show",), FAULTS),
        (("show", "--json", "--table", "-"), FAULTS),
        (("show", "--max-capacity"), ""),
        (("show", "--color"), ""),
        (("check", "--max-blocked", "7"), FAULTS),
        (("explain", "--max-capacity", "64", "0380", "d1"), ""),
        (("explain",), "0000d1"),
        (("reports",), ""),
        (('it\'s "one"', "", "a\nb"), ""),
    ]
    for words, data in cases:
        expected = run(PROGRAM, *words, data=data)
        for front in FRONTS:
            assert run(front, *words, data=data) == expected, (front, words)
    assert run(INSTALLED, "--version") == run(PROGRAM, "--version")


def test_help():
    """The help on a command that the front reads is the program's, and then the words of the front."""
    for words in (("help", "show"), ("show", "--help"), ("check", "-h"), ("help", "explain")):
        expected = run(PROGRAM, *words)
        for front in FRONTS:
            status, output, said = run(front, *words)
            assert (status, said) == (0, b"") and output.startswith(expected[1] + b"\n"), words
            assert (b"--qlog" in output, b"--color=WHEN" in output) == ("show" in words, True), output


def test_files():
    """A file that a word names is read as standard input is, wherever the word is."""
    plain, limit = write("yes.txt", FAULTS), ("--max-capacity", "220")
    for command in ("show", "check"):
        expected = run(PROGRAM, command, "--max-capacity", "220", data=FAULTS)
        for front in FRONTS:
            for words in ((plain, *limit), (*limit, plain), (*limit, "--color=never", plain)):
                assert run(front, command, *words) == expected, words
            assert run(front, command, "--max-capacity", "220", "yes.txt", cwd=ROOM) == expected
            linked = run("sh", "-c", f"cat {plain} | {front} {command} --max-capacity 220 /dev/stdin")
            assert linked == expected
    for front in FRONTS:
        for name in (ROOM / "none", ROOM):
            assert run(front, "show", name) == (1, b"", f"qpk: {name} is not a file that can be read\n".encode())


def test_files_after_two_minuses():
    """After -- a word is a file, whatever it begins with, of a recording, a trace and for the scripts."""
    names = {"-x": "b 4 0000d1\n", "--json": (TOP / "tests" / "qlog" / "client.qlog").read_text(), "--color=red": "b 4 0000\n"}
    for name, text in names.items():
        write(name, text)
        for front in FRONTS:
            for words in (("show", "--color=always"), ("check",), ("show", "--stream", "4")):
                expected = run(front, *words, f"./{name}", cwd=ROOM)
                assert run(front, *words, "--", name, cwd=ROOM) == expected and expected[1], (words, name)
    for words in (("stats",), ("report",), ("table", "--at", "end")):
        for name in ("-x", "--json"):
            status, output, _ = run(INSTALLED, *words, "--", name, cwd=ROOM)
            assert output and status == 0, (words, name)
    for front in FRONTS:
        expected = run(PROGRAM, "show", data=FAULTS)
        assert run(front, "show", "--", data=FAULTS) == run(front, "show", "--", "-", data=FAULTS) == expected
        assert run(front, "show", "--", ROOM / "-x", "-y")[0] == 1
        assert run(front, "explain", "--", "ff") == run(PROGRAM, "explain", "--", "ff")


def test_names_on_a_terminal():
    """A control character in a name that is reported is a question mark, and a backslash is itself."""
    for name, shown in (
        ("\x1b[31mred\r\n", "?[31mred??"),
        ("\x9b31m\x7f \xe9\u20ac", "?31m? \xe9\u20ac"),
        ("\\033[31m\\n%s", "\\033[31m\\n%s"),
    ):
        for front in FRONTS:
            said = f"qpk: {shown} is not a file that can be read\n".encode()
            assert run(front, "show", name) == (1, b"", said), said
            said = f'qpk: --color is always, auto or never, and not "{shown}"\n'.encode()
            assert run(front, "show", f"--color={name}") == (1, b"", said), said
            for words in (("show", "--stream", "4"), ("stats",)):
                status, output, said = run(front, *words, name)
                assert (status, output) == (1, b"") and shows_no_fault_of_a_script(said) and said.count(b"\n") == 1, said


def test_the_end_of_the_reader():
    """If the reader of the output ends, the front says nothing of its own; scripts and colours end as by SIGPIPE."""
    path = write("long.txt", "b 4 0000d1\n" * 5_000)
    for front in FRONTS:
        for words in ("show --stream 4", "stats --json", "report", "table --at end --json"):
            assert run("sh", "-c", f"{{ {front} {words} {path}; echo $? >&3; }} 3>&2 | true")[2] == b"141\n", words
        for color, status in (("always", b"141\n"), ("never", b"1\n")):
            command = f"{{ {front} show --color={color} {path}; echo $? >&3; }} 3>&2 | true"
            assert run("sh", "-c", command)[2] == status, color


def test_a_long_recording():
    """show and check take a time that is linear in their input, and at most three times its memory, which is more than
    this process has: the program's own counts from there."""
    line = "b 4 0000d1d7c1510b2f61626364656667686970\n"
    (ROOM / "short").write_text(line * 125_000, encoding="ascii")
    (ROOM / "long").write_text(line * 500_000, encoding="ascii")
    for word in ("show", "check"):
        with open(ROOM / "short", "rb") as short, open(ROOM / "long", "rb") as long:
            seconds, _ = cost_of([PROGRAM, word], short, subprocess.DEVNULL)
            more, memory = cost_of([PROGRAM, word], long, subprocess.DEVNULL)
        most = 3 * (ROOM / "long").stat().st_size // 1024
        assert are_linear(seconds, more) and memory <= most, (word, seconds, more, memory)


def test_recordings_of_the_interop():
    """A recording of bytes is read as one, even if it begins as a trace does."""
    recording = b"\x1e" + bytes(7) + (3).to_bytes(4, "big") + b"\x00\x00\xd1"
    (ROOM / "interop").write_bytes(recording)
    for front in FRONTS:
        for words in (("show", "--qif"), ("show", "--stream", 0x1E << 56, "--qif")):
            status, output, _ = run(front, *words, ROOM / "interop")
            assert (status, output.splitlines()[1]) == (0, b"  2 static 17, :method: GET"), words


def test_captures_and_traces():
    """What is no recording of lines is read by the script, in an install as in a clone, and through a link."""
    link = ROOM / "link"
    link.symlink_to(INSTALLED)
    trace = TOP / "tests" / "qlog" / "client.qlog"
    assert run(INSTALLED, "show", trace) == run(link, "show", trace) == run(FRONTS[0], "show", trace)
    assert b"foo: bar" in run(INSTALLED, "show", trace)[1]
    capture = TOP / "tests" / "captured" / "chromium.pcapng"
    if can_decrypt():
        shown = run(INSTALLED, "show", CHROMIUM)[1]
        for front in FRONTS:
            assert run(front, "show", capture)[1].partition(b"\n")[2] == shown
            assert run(front, "show", "--json", capture, "--stream", 4)[0] == 0
    status, output, said = run(INSTALLED, "show", "--connection")
    assert (status, output) == (1, b"") and b"expected one argument" in said, said


def test_what_a_capture_is():
    """By its first bytes a file is a capture for each script, or is compressed; other bytes are no text."""
    captures = ("0a0d0d0a", "d4c3b2a1", "a1b2c3d4", "4d3cb2a1", "a1b23c4d")
    compressed = ("1f8b0800", "fd377a58", "28b52ffd")
    for head in (*captures, *compressed, "0a0d0d0b", "1f8b0000", "00000000"):
        (ROOM / "head").write_bytes(bytes.fromhex(head) + b"\0\xff")
        said = b"the capture has no packets: " if head in captures else b"the input is no text; --qif reads a recording "
        said = b"the file can't be decompressed" if head in compressed else said
        if head == "28b52ffd" and not shutil.which("zstd"):
            said = b"the file "  # and then that it can't be decompressed by a module, or that zstd is to be installed
        for words in (*((it, "show") for it in FRONTS), (INSTALLED, "stats"), (f"{INSTALLED}-capture", "show")):
            status, output, faults = run(*words, ROOM / "head", env={**os.environ, "QPK": str(PROGRAM)})
            assert (status, output) == (1, b"") and said in faults, (head, words, faults)


def test_a_file_alone():
    """A word that is no command and names a file shows that; a command or an unknown word stays what it is."""
    write("recording", FAULTS)
    write("inspect", FAULTS)
    capture = TOP / "tests" / "captured" / "chromium.pcapng"
    for front in FRONTS:
        assert run(front, "recording", cwd=ROOM) == run(front, "show", "recording", cwd=ROOM)
        assert run(front, "./inspect", "--json", cwd=ROOM) == run(front, "show", "--json", "inspect", cwd=ROOM)
        assert run(front, capture, "--stream", "4") == run(front, "show", capture, "--stream", "4")
        for words in (("inspect", "x"), ("recordings",), ("",), (".",)):
            assert run(front, *words, cwd=ROOM) == run(PROGRAM, *words), words


def test_help_on_all():
    """It is the program's, and has each command, those too that are scripts."""
    for words in (("help",), ("-h",), ("--help",)):
        expected = run(PROGRAM, *words)[1].splitlines()
        for front in FRONTS:
            status, output, said = run(front, *words)
            lines = output.splitlines()
            assert (status, said) == (0, b"") and [it for it in lines if it in expected] == expected, (words, output)
            added = [it.split()[0] for it in lines if it not in expected]
            assert added == [b"report", b"open", b"stats", b"table", b"tune", b"strip"], output


def test_commands_of_the_script_for_captures():
    """strip, tune, a packet of explain, --follow and --all go to their script, or are left out where the program answers."""
    capture = TOP / "tests" / "captured" / "chromium.pcapng"
    for front in FRONTS:
        status, output, said = run(front, "strip", "--seed", "a", CHROMIUM)
        assert status == 0 and output.count(b"\n") == CHROMIUM.read_bytes().count(b"\n") and b"values became others" in said
        for command in ("strip", "tune"):
            expected = run(front, command, "--help")
            assert run(front, "help", command) == expected and expected[1].startswith(f"usage: qpk {command} ".encode())
            assert run(front, command, ROOM / "none")[:2] == (1, b""), command
        assert run(front, "check", "--all", CHROMIUM) == run(front, "check", CHROMIUM)
        assert run(front, "show", "--all", CHROMIUM) == run(PROGRAM, "show", "--all", "-")
        assert b"name a recording, or a log" in run(front, "show", "--follow", "-")[2]
        if can_decrypt():
            status, output, _ = run(front, "explain", capture, "#15")
            assert status == 0 and b"> decoder 0: acknowledge stream 0\n" in output, output


def test_colours_take_nothing_away():
    """Without its colours the text is that without colours, byte for byte, and so is the status."""
    faults = write("faults", FAULTS)
    trace = TOP / "tests" / "qlog" / "client.qlog"
    without = [("check", CHROMIUM), ("check", trace)]
    cases = [("show", faults), ("show", "--table", faults), ("check", faults), ("show", "--table", CHROMIUM)]
    streams = ("--encoder-stream 3fe11fc10162ff", "--decoder-stream 84ff")
    explained = ("0000d1 ff24 5f1d0362 61", "ff", "0f", "0381 10", *streams)
    cases += [("show", trace), *(("explain", *it.split()) for it in explained)]
    for words in cases + without:
        plain = run(INSTALLED, *words)
        for front in FRONTS:
            assert run(front, *words, "--color=never") == run(front, *words, "--color=auto") == plain
            status, output, said = run(front, *words, "--color=always")
            assert (status, MARKS.sub(b"", output), said) == plain, words
            assert (output == plain[1]) == (words in without), words
    assert run(INSTALLED, "show", "--json", faults, "--color=always") == run(INSTALLED, "show", "--json", faults)


def test_what_has_colours():
    """Names are bold, offsets dim, what is refused or found is red, and what is blocked yellow."""
    faults = write("faults", FAULTS)
    shown = run(INSTALLED, "show", "--color=always", faults)[1].decode().splitlines()
    found = run(INSTALLED, "check", "--color=always", faults)[1].decode().splitlines()
    explained = run(INSTALLED, "explain", "--color=always", "0000d1ff24")[1].decode().splitlines()
    reason = "it waits for insertion 1, and no more streams may be blocked"
    assert shown[2] == f"> section 4: {YELLOW}blocked until insertion 1{PLAIN}"
    assert shown[3] == f"> section 8: {RED}refused in input line 5: {reason}{PLAIN}"
    assert shown[4] == "> section 12: required insert count 0, base 0"
    assert shown[5].startswith(f"  {DIM}2{PLAIN} {RED}refused in input line 6: static index 99 ")
    assert shown[6] == f"> encoder {DIM}0{PLAIN}: set capacity 4096"
    assert shown[7] == f"> encoder {DIM}3{PLAIN}: insert as entry 1, {BOLD}foo{PLAIN}: bar"
    assert shown[9] == f"  {DIM}2{PLAIN} post-base 0 (entry 1), {BOLD}foo{PLAIN}: bar"
    assert f"  {DIM}3{PLAIN} literal, {BOLD}a,b{PLAIN}: refused in input line 1: x" in shown, shown
    assert any(it.endswith(f" literal, {BOLD}c:{PLAIN}: blocked until insertion 3") for it in shown), shown
    assert f"> encoder {DIM}10{PLAIN}: insert as entry 2, {BOLD}d,{PLAIN}: x as entry 9, e: f" in shown, shown
    assert f"> encoder {DIM}32{PLAIN}: insert as entry 3, {BOLD}refused{PLAIN}: in input line 1: x" in shown, shown
    assert f"> section 20: {YELLOW}blocked until insertion 9{PLAIN}" in shown, shown
    assert any(it.startswith(f"< decoder {DIM}1{PLAIN}: acknowledge stream 4, {RED}refused in ") for it in shown), shown
    reason = f"{RED}static index 99 is past the static table, which ends at 98{PLAIN}"
    assert found[1].startswith(f"line 6: > section of stream 12, byte 2: {reason} [RFC 9204, section 3.1; "), found
    assert explained[2] == f"{DIM}   2{PLAIN}  d1  1 1 010001    indexed, static 17: {BOLD}:method{PLAIN}: GET"
    assert explained[3].endswith(f"indexed, static 99: {RED}past the static table, which ends at 98{PLAIN}")


def test_terminals():
    """There are colours on a terminal, unless NO_COLOR has a value, or the terminal has none, or a word says so."""
    for front in FRONTS:
        plain = run(front, "show", CHROMIUM)[1]
        status, output = on_terminal(front, "show", CHROMIUM)
        assert status == 0 and output != plain and MARKS.sub(b"", output) == plain
        assert on_terminal(front, "show", CHROMIUM, NO_COLOR="")[1] == output
        assert on_terminal(front, "show", "--color=always", CHROMIUM, NO_COLOR="1")[1] == output
        assert on_terminal(front, "show", CHROMIUM, NO_COLOR="1") == (0, plain)
        assert on_terminal(front, "show", CHROMIUM, TERM="dumb") == (0, plain)
        assert on_terminal(front, "show", "--color=never", CHROMIUM) == (0, plain)
        assert on_terminal(front, "explain", "ff")[0] == run(front, "explain", "ff")[0] == 2
        assert on_terminal(front, "encode", "--qif", "0", "0", "0") == (1, b"")


def test_the_output_is_full():
    """An output that can't be written is refused, with colours and without."""
    for front in FRONTS:
        for word in ("--color=always", "--color=never"):
            for to in ("/dev/full", "&-"):
                status, _, said = run("sh", "-c", f"exec {front} show {word} {CHROMIUM} >{to}")
                assert (status, said) == (1, b"qpk: refused: output\n"), (word, to, status, said)


def test_a_word_of_colours():
    """Other words than the three are refused."""
    for front in FRONTS:
        status, output, said = run(front, "show", "--color=red", CHROMIUM)
        assert (status, output, said) == (1, b"", b'qpk: --color is always, auto or never, and not "red"\n')


def test_signals():
    """A signal ends the program itself, which takes the place of the scripts."""
    for front in FRONTS:
        for words in (("encode",), ("show",), ("check", "-")):
            with subprocess.Popen([front, *words], stdin=subprocess.PIPE, stdout=subprocess.PIPE) as running:
                end = time.time() + 20
                while not is_program(running.pid) and time.time() < end:
                    time.sleep(0.01)
                is_there = is_program(running.pid)
                running.send_signal(signal.SIGTERM)
            assert (is_there, running.returncode) == (True, -signal.SIGTERM), words


def is_program(pid):
    """Whether a process is the program, and no shell."""
    return Path(os.readlink(f"/proc/{pid}/exe")).name.startswith("qpk")


def test_a_command_that_is_a_script():
    """report, open, stats and table go to their script, which has the program in a variable."""
    script = LIBEXEC / "tool" / "qpk-report"
    kept = script.with_suffix(".kept")
    script.rename(kept)
    script.write_text('#!/bin/sh\necho "$QPK" "$@"\nexit 7\n')
    script.chmod(0o755)
    try:
        for command in ("report", "open", "stats", "table"):
            status, output, _ = run(INSTALLED, command, "x y", "--color=always")
            program, words = output.decode().split(" ", 1)
            assert (status, words) == (7, f"{command} x y --color=always\n") and os.path.samefile(program, PROGRAM)
            assert run(INSTALLED, "help", command)[1].endswith(f" {command} --help\n".encode())
    finally:
        kept.rename(script)
    status, output, _ = run(INSTALLED, "table", "--at", "end", CHROMIUM)
    assert status == 0 and b" of 4096 bytes" in output, output


def test_no_program():
    """Without its program the front says so."""
    status, output, said = run(TOP / "tool" / "qpk-front", "help", env={"PATH": os.environ["PATH"]})
    assert (status, output) == (3, b"") and b"in a clone run ./qpk" in said
    alone = ROOM / "alone" / "qpk"
    alone.parent.mkdir()
    shutil.copy(TOP / "tool" / "qpk-front", alone)
    assert run(alone, "help", timeout=60)[0] == 3
    assert run(alone, "help", env={**os.environ, "QPK_PROGRAM": str(INSTALLED)}) == run(INSTALLED, "help")
    status, _, said = run(INSTALLED, "show", "--qlog", CHROMIUM, env={"PATH": str(ROOM)})
    assert status == 3, said


def main():
    """Installs the program, and runs all tests over it."""
    if missing_tool():
        print(f"front: nothing was tested, as {missing_tool()} is not installed")
        return 0
    install(ROOM)
    return run_tests(globals(), "front", "tool/qpk-front")


if __name__ == "__main__":
    sys.exit(main())
