#!/usr/bin/env python3
"""Drops files on the page of qpk open, in headless Chromium and Firefox, and compares what it shows with qpk report.

The page must make the very data of the page that qpk report makes of the same file, the findings of qpk check among them: of
recordings, as they are and with faults, of captures, of a net log and of traces. Files that are cut, damaged or of another
kind must have an answer too. Without 64-bit memory JavaScript reads the files: then the events without findings and numbers
are compared. Needs chromium and firefox-esr, and leaves out the one that is not there. It opens no connection.

    tests/browsers/tab.py                   makes all checks
    tests/browsers/tab.py FILE [KEYLOG]     compares this file alone
    tests/browsers/tab.py --pictures FOLDER writes pictures of the page, and tests nothing

The last line is 'N passed, M failed'.
"""
import base64
import gzip
import itertools
import json
import random
import re
import struct
import subprocess
import sys
import zlib
from pathlib import Path

import checks
import devtools
import everybody
import keyboard
from nghttp3 import Failure

TOP = Path(__file__).resolve().parents[2]
sys.path[:0] = [str(TOP / "tool"), str(TOP / "tool" / "tests")]
import qpk.libcrypto  # noqa: E402 # pylint: disable=wrong-import-position
from sealed import Made, ip_packets, pcapng  # noqa: E402 # pylint: disable=wrong-import-position

QPK, PROGRAM = TOP / "qpk", TOP / "dist" / "qpk-wasm64.wasm"
CAPTURED, TRACES = TOP / "tests" / "captured", TOP / "tests" / "qlog"
RECORDING, CAPTURE = CAPTURED / "chromium.txt", CAPTURED / "ngtcp2-gso.pcapng"
NET_LOG, KEYS = CAPTURED / "chromium-net-log.json.gz", CAPTURED / "chromium-net-log.keys"
# Each with its key log, if it does not have its secrets itself.
FILES = [
    (RECORDING,),
    (CAPTURE,),
    (NET_LOG, KEYS),
    *((CAPTURED / it,) for it in ("chromium.pcapng", "chromium-moved.pcapng", "firefox.pcapng", "ngtcp2-update.pcapng")),
    *((TRACES / it,) for it in ("client.qlog", "forerunner.qlog", "server.sqlog")),
]
DAMAGED = 24  # recordings and captures with faults by chance
SECONDS = 120
# Drops files, each a name and its bytes in base64, and answers once they were read.
DROP = """(async () => {
    const transfer = new DataTransfer();
    for (const [name, text] of FILES) transfer.items.add(new File([Uint8Array.from(atob(text), it => it.charCodeAt(0))], name));
    delete document.body.dataset.read;
    dispatchEvent(new DragEvent('drop', {dataTransfer: transfer, bubbles: true, cancelable: true}));
})()"""
# Has WebAssembly refuse modules with 64-bit memory, and begins again.
FORBID = """(() => {
    WebAssembly.validate = () => false;
    tab.module = null;
    delete document.body.dataset.tab;
    tab.begin().then(() => { document.body.dataset.tab = 'yes'; });
})()"""
SAID = "document.querySelector('.drop .status').textContent"
BY = "document.querySelector('.drop .by').textContent"
PROVED = f"{BY}.includes('from the module that is proved')"
# Answers that a file of a kind must have, by words of them.
REFUSED = [
    ("nothing", b"", "line"),
    ("a text", b"hello\n", "line 1"),
    ("a word of JavaScript", b"constructor 00\n", "line 1"),
    ("a picture", b"\x89PNG\r\n\x1a\n" + bytes(64), "line 1"),
    ("an empty capture", bytes.fromhex("d4c3b2a1020004000000000000000000ffff000001000000"), "no packets"),
    ("a block that is too large", bytes.fromhex("0a0d0d0affffff7f4d3c2b1a01000000"), "no packets"),
    ("an archive that is cut", bytes.fromhex("1f8b0800000000000003"), "decompress"),
    ("an archive that is too large", gzip.compress(bytes(300 << 20), 1), "longer than 268435456 bytes"),
    ("what xz compressed", bytes.fromhex("fd377a585a0000"), "xz"),
    ("a key log", b"CLIENT_RANDOM " + b"00" * 32 + b" " + b"11" * 48 + b"\n", "key logs alone"),
    ("a net log without events", b'{"constants": {}}\n', "no events"),
    ("a trace without events", b'{"traces": []}', "no bytes"),
    ("a trace of another kind", b'{"events": 1, "trace": {"events": [1]}}', "another kind"),
    (
        "a frame with a name of JavaScript",
        b'{"trace": {"events": [{"name": "http3:frame_created", "data": {"stream_id": 0, "raw": "01", '
        b'"frame": {"frame_type": "constructor"}}}]}}',
        "no bytes",
    ),
]


def run(*words, statuses=(0,)):
    """Runs qpk, and returns what it prints."""
    ran = subprocess.run([QPK, *words], capture_output=True, check=False)
    if ran.returncode not in statuses:
        raise Failure(f"qpk {words[0]} ended with {ran.returncode}: {ran.stderr.decode(errors='replace').strip()[:300]}")
    return ran


def reported(path, keys):
    """Returns the data of the page that qpk report makes of a file, or nothing if it refuses the file."""
    ran = run("report", path, *(["--keys", keys] if keys else []), statuses=(0, 1, 2))
    if ran.returncode == 1:
        return None
    begin = ran.stdout.index(b'id="data">') + len(b'id="data">')
    return json.loads(zlib.decompress(base64.b64decode(ran.stdout[begin : ran.stdout.index(b"<", begin)])))


class Tab:
    """The page in a tab of a browser."""

    def __init__(self, browser, room):
        path = Path(room) / "tab.html"
        path.write_bytes(run("open", "-o", "-").stdout)
        self.browser, self.page, self.url = browser, browser.open("about:blank"), path.as_uri()
        self.page.look(1280, 860)
        self.page.go(self.url)
        self.page.wait_for("document.body && document.body.dataset.tab === 'yes'")
        self.is_proved = self.page.ask(PROVED)

    def forbid_memory(self):
        """Makes the page one in a browser without 64-bit memory."""
        self.page.ask(FORBID)
        self.page.wait_for("document.body.dataset.tab === 'yes'")
        self.is_proved = self.page.ask(PROVED)

    def drop(self, *files):
        """Drops files, which are names and bytes, and returns the data of the page, or nothing if it shows why there are none."""
        self.page.ask("tab.files = []")
        self.add(*files)
        return json.loads(self.page.ask("JSON.stringify({...data, kinds: undefined})")) if self.is_read() else None

    def add(self, *files):
        """Drops files beside those that are there, and waits until they were read."""
        texts = [[name, base64.b64encode(data).decode()] for name, data in files]
        self.page.ask(DROP.replace("FILES", json.dumps(texts)))
        self.page.wait_for("document.body.dataset.read")

    def is_read(self):
        """Returns whether the page shows what it was given."""
        return self.page.ask("document.body.dataset.read") == "yes"

    def said(self):
        """Returns what the page says of the files."""
        return self.page.ask(SAID)


def events_alone(data):
    """Returns the parts of data that JavaScript makes too: the rows of events, in which no section is refused, and the fields."""
    return [[row for row in it["trace"]["events"] if row[0] != "t"] for it in data["connections"]]


def difference(one, other, place=""):
    """Returns where two values differ first, and how, or nothing."""
    if isinstance(one, dict) and isinstance(other, dict):
        return next(
            filter(None, (difference(one.get(it), other.get(it), f"{place}/{it}") for it in sorted({*one, *other}))), ""
        )
    if isinstance(one, list) and isinstance(other, list) and len(one) == len(other):
        return next(filter(None, (difference(*it, f"{place}/{at}") for at, it in enumerate(zip(one, other)))), "")
    return "" if one == other else f"{place}: qpk report has {str(one)[:100]}, and the page {str(other)[:100]}"


def compare(tab, path, keys=None):
    """Compares a file as the page shows it with the report on it. Returns how many events there are, or why there are none."""
    wanted = reported(path, keys)
    found = tab.drop(*((it.name, it.read_bytes()) for it in (path, keys) if it))
    if wanted is None:
        if found:
            raise Failure(f"{path.name}: the page reads what qpk report refuses")
        return 0
    if found is None:
        raise Failure(f"{path.name}: {tab.said()}")
    if not tab.is_proved:
        wanted, found = events_alone(wanted), events_alone(found)
    differs = difference(wanted, found)
    if differs:
        raise Failure(f"{path.name}: {differs}")
    return (
        sum(len(it) for it in found) if not tab.is_proved else sum(len(it["trace"]["events"]) for it in found["connections"])
    )


def check_program(tab, _):
    """The page says that the program reads files, where dist/ has it and the browser 64-bit memory, or that JavaScript does."""
    if tab.is_proved != (PROGRAM.is_file() and tab.page.ask("WebAssembly.validate(WITH_MEMORY64)")):
        raise Failure(f"it says: {tab.page.ask(BY)}")
    return "read by the program" if tab.is_proved else "read by JavaScript"


def check_files(tab, _):
    """The recording, the captures, the net log and the traces of the tree."""
    counts = [compare(tab, *files) for files in FILES]
    return f"{len(counts)} files, {sum(counts)} events"


def damage(data, chance):
    """Returns bytes with a few faults by chance: a byte that is another one, bytes that are missing, or an end."""
    data = bytearray(data)
    for _ in range(chance.randint(1, 4)):
        at = chance.randrange(len(data))
        kind = chance.random()
        if kind < 0.7:
            data[at] = data[at] ^ 1 << chance.randrange(4)
        elif kind < 0.9:
            del data[at : at + chance.randint(1, 40)]
        else:
            del data[max(at, len(data) // 2) :]
    return bytes(data)


def check_ciphers(tab, room):
    """A capture by each cipher of QUIC, of the lines of the recording."""
    if qpk.libcrypto.Library.get() is None:
        raise checks.NotShown("without libcrypto")
    lines = RECORDING.read_text("utf-8").splitlines()[1:]
    for number, suite in enumerate(qpk.libcrypto.ALL):
        made, path = Made(suite=suite).begin().take(lines), Path(room) / f"{number}.pcapng"
        path.write_bytes(pcapng(ip_packets(made.datagrams), secrets=made.keys()))
        if not compare(tab, path):
            raise Failure(f"{suite.cipher}: there are no events")
    return f"{len(qpk.libcrypto.ALL)} ciphers"


def check_damaged(tab, room):
    """Recordings and captures with faults by chance. JavaScript must have an answer, which may be another one."""
    chance, refused = random.Random(99), 0
    for number in range(DAMAGED):
        original = (RECORDING, CAPTURE)[number % 2]
        path = Path(room) / f"{number}{original.suffix}"
        path.write_bytes(damage(original.read_bytes(), chance))
        if tab.is_proved:
            refused += compare(tab, path) == 0
        elif tab.drop((path.name, path.read_bytes())) is None:
            refused += 1
            if not tab.said():
                raise Failure(f"{path.name}: the page does not say what is wrong")
    return f"{DAMAGED} files, of which {refused} have no event"


def check_refused(tab, _):
    """Files of other kinds: the page says what is wrong with each."""
    for name, data, word in REFUSED:
        found = tab.drop((name, data))
        if found and found["connections"][0]["trace"]["events"]:
            raise Failure(f"{name}: it has events")
        if not found and word not in tab.said():
            raise Failure(f"{name}: {tab.said()}")
    return f"{len(REFUSED)} files"


def cut_packets(data, kept):
    """Returns a file of pcapng in which packets have that many bytes, those of every fourth block."""
    at, number, parts = 0, 0, []
    while at < len(data):
        kind, size = struct.unpack("<II", data[at : at + 8])
        block, at, number = data[at : at + size], at + size, number + 1
        if kind == 6 and number % 4 == 0:
            body = block[8:20] + struct.pack("<I", kept) + block[24 : 28 + kept]
            block = struct.pack("<II", 6, len(body) + 12) + body + struct.pack("<I", len(body) + 12)
        parts.append(block)
    return b"".join(parts)


def check_cut_packets(tab, room):
    """Of a capture in which the snap length cut some packets, the page shows the others, and says what qpk says."""
    path = Path(room) / "cut.pcapng"
    path.write_bytes(cut_packets(CAPTURE.read_bytes(), 40))
    count = compare(tab, path)
    reason = re.search(r"\d+ of \d+ packets are cut to 40 bytes: .*", run("show", path).stderr.decode())[0]
    if not count or reason not in tab.said():
        raise Failure(f"{count} events; qpk says {reason}, and the page {tab.said()}")
    return f"{count} events"


def check_keys_later(tab, _):
    """A net log without its key log is refused, and read once the key log is dropped too."""
    if tab.drop((NET_LOG.name, NET_LOG.read_bytes())) or "key log" not in tab.said():
        raise Failure(f"without the key log the page says: {tab.said()}")
    tab.add((KEYS.name, KEYS.read_bytes()))
    if not tab.is_read():
        raise Failure(f"with the key log the page says: {tab.said()}")
    return tab.page.ask("document.querySelector('h1:not([hidden])').textContent")


def typed(tab, area, text):
    """Types a text into an area, and returns both areas, the bits, and what is wrong with the text."""
    tab.page.ask("document.querySelector('.typing').open = true")
    tab.page.wait_for("document.querySelector('.typing').dataset.shown")
    before = tab.page.ask("document.querySelector('.typing').dataset.shown")
    tab.page.ask(f"(it => {{ it.focus(); it.value = {json.dumps(text)}; it.oninput(); }})(document.getElementById('{area}'))")
    tab.page.wait_for(f"document.querySelector('.typing').dataset.shown !== '{before}'")
    return tab.page.ask(
        """['#fields', '#bytes', '.bits', '.typing .status'].map(it => document.querySelector(it))
        .map(it => it.value ?? it.textContent)"""
    )


def check_typing(tab, _):
    """Fields that are typed become bytes, and bytes fields, as qpk has them. What can't be read has an answer."""
    fields = [":method: GET", ":path: /a?b=c", "accept: */*", "x-mine: hello", "server: "]
    _, digits, bits, fault = typed(tab, "fields", "\n".join(fields))
    decoded = subprocess.run(
        [QPK, "decode", "10000"], input=digits, capture_output=True, text=True, check=False
    ).stdout.splitlines()[:-1]
    if decoded != [it.replace(": ", "\t", 1) for it in fields] or fault:
        raise Failure(f"qpk decode reads {decoded}: {fault}")
    if tab.is_proved and bits != run("explain", digits).stdout.decode().rstrip():
        raise Failure(f"the bits are {bits}")
    found = typed(tab, "bytes", "0000 d1:C1 23666f6f03626172")[0].splitlines()
    if found != [":method: GET", ":path: /", "foo: bar"]:
        raise Failure(f"bytes that are typed have the fields {found}")
    for area, text in (
        ("bytes", "0000d"),
        ("bytes", "0000zz"),
        ("bytes", "0280 10"),
        ("bytes", "00002aff"),
        ("fields", "no colon"),
        ("fields", "a" * 70_000),
    ):
        if not typed(tab, area, text)[3]:
            raise Failure(f"nothing is said of {text[:20]}")
    return f"{len(fields)} fields"


def check_everybody(tab, _):
    """The page, empty and with a file, has enough contrast, names, one heading, and nothing too wide. Tab stops at the chooser."""
    tab.page.go(tab.url)
    tab.page.wait_for("document.body && document.body.dataset.tab === 'yes'")
    tab.page.press("Tab")
    keyboard.expect(tab.page, "document.activeElement.id", "files", "after Tab the focus is at")
    tab.page.ask("document.querySelector('.typing').open = true")
    for is_filled in (False, True):
        if is_filled:
            tab.drop((RECORDING.name, RECORDING.read_bytes()))
        for width, scheme in itertools.product((1280, 400), tab.browser.schemes):
            tab.page.look(width, 860, scheme)
            wrong = tab.page.ask(everybody.WRONG)
            if wrong:
                raise Failure(f"{'with a file' if is_filled else 'empty'}, {width} pixels, {scheme}: {'; '.join(wrong)}")
    return f"{4 * len(tab.browser.schemes)} views"


def take_pictures(tab, folder):
    """Writes pictures of the page with fields that are typed: 1280 and 400 pixels wide, light and dark."""
    for width, scheme in itertools.product((1280, 400), ("light", "dark")):
        tab.page.look(width, 860, scheme)
        typed(tab, "fields", ":method: GET\n:path: /\naccept: */*\nx-mine: hello\n")
        tab.page.ask("document.activeElement.blur()")
        name = f"open{'' if width == 1280 else '-narrow'}{'' if scheme == 'light' else '-dark'}.png"
        (Path(folder) / name).write_bytes(tab.page.picture())


CHECKS = {
    "the program": check_program,
    "files": check_files,
    "ciphers": check_ciphers,
    "damaged files": check_damaged,
    "files of other kinds": check_refused,
    "packets that are cut": check_cut_packets,
    "the key log later": check_keys_later,
    "typing": check_typing,
    "everybody": check_everybody,
}
OF_READING = ("the program", "files", "damaged files")


def try_checks(browser, room, words):
    """Makes the checks in a browser, those of what is read also without 64-bit memory. Returns how many passed and failed."""
    tab = Tab(browser, room)
    made = {words[0]: lambda tab, _: compare(tab, *map(Path, words))} if words else CHECKS
    counts = [try_with(tab, room, made)]
    if tab.is_proved and not words:
        tab.forbid_memory()
        counts.append(try_with(tab, room, {it: CHECKS[it] for it in OF_READING}))
    return tuple(map(sum, zip(*counts)))


def try_with(tab, room, made):
    """Makes checks on a page, and returns how many passed and failed."""
    about = f"{tab.browser.name}{'' if tab.is_proved else ' by JavaScript'}"
    return checks.try_checks("tab.py", about, {name: lambda it=it: it(tab, room) for name, it in made.items()})


def main():
    """Makes all checks, or compares the file that is named."""
    words = sys.argv[1:]
    if words[:1] == ["--pictures"]:
        with checks.opened(devtools.Browser) as (browser, room):
            take_pictures(Tab(browser, room), words[1])
        return 0
    return checks.in_each("the page in a tab", lambda browser, room: try_checks(browser, room, words))


if __name__ == "__main__":
    sys.exit(main())
