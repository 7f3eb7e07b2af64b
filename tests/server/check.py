#!/usr/bin/env python3
"""Sends hostile requests to the example server, over QUIC: tests/server/check.py.

It builds examples/http3-server with the address sanitizer, and the client beside this file. Each case is a connection of
its own, to one server, whose memory must stay below a bound and which must end with status 0, without a leak. Then the
server runs with allocations refused. It needs a C compiler, make, openssl, pkg-config and, on Debian, libngtcp2-dev,
libngtcp2-crypto-gnutls-dev and libgnutls28-dev. It uses addresses of this machine alone.

The last line is 'N passed, M failed'.
"""
import os
import re
import signal
import socket
import subprocess
import sys
import tempfile
import time
from concurrent.futures import ThreadPoolExecutor
from contextlib import contextmanager

HERE = os.path.dirname(os.path.abspath(__file__))
SERVER = os.path.join(HERE, "..", "..", "examples", "http3-server")
QUIC = ["libngtcp2_crypto_gnutls", "libngtcp2", "gnutls"]
SANITIZED = "-O1 -g -fsanitize=address,undefined -fno-sanitize-recover"
# The most memory that the server may have, in MB, and how much of it the sanitizer keeps of what is freed.
MOST_MEMORY = 150
SANITIZER = "quarantine_size_mb=1:detect_leaks=1"
SECONDS = 60
# The server's bounds, as server.h has them.
MOST_BODY, MOST_PATH, MOST_EVENTS, LIMIT = 65536, 512, 4 << 20, 65536


class Failure(Exception):
    """What a case found wrong."""


# ---- Bytes of HTTP/3 and QPACK


def varint(value):
    return (0xC000000000000000 | value).to_bytes(8, "big")


def frame(kind, payload, announced=None):
    return varint(kind) + varint(len(payload) if announced is None else announced) + payload


def integer(value, bits, flags):
    """Returns an integer of QPACK (RFC 9204, section 4.1.1)."""
    most = (1 << bits) - 1
    if value < most:
        return bytes([flags | value])
    out, value = bytes([flags | most]), value - most
    while value > 127:
        out, value = out + bytes([value % 128 | 128]), value >> 7
    return out + bytes([value])


def line(name, value):
    """Returns a literal field line with a literal name."""
    return integer(len(name), 3, 0x20) + name + integer(len(value), 7, 0) + value


def section(*fields):
    return b"\0\0" + b"".join(line(*it) for it in fields)


def get(path, *fields):
    """Returns the HEADERS frame of a request."""
    return frame(
        1, section((b":method", b"GET"), (b":scheme", b"https"), (b":authority", b"localhost"), (b":path", path), *fields)
    )


def send(stream, data):
    return f"send {stream} {data.hex()}"


def request(stream, data):
    return [send(stream, data), f"end {stream}"]


CONTROL = [send(2, b"\0" + frame(4, b""))]
ENCODER = b"\x02"
# A request for the first entry of the table and :method GET, and the instructions that insert it: :path /.
BLOCKED = frame(1, b"\x02\x00\x80\xd1")
INSERTION = b"\x3f\xe1\x1f\x45:path\x01/"


# ---- What is sent, and what is expected of the server. A case is a script, and patterns of lines that the client prints.


def answered(status, stream=0):
    return rf"^stream {stream} .* status {status} body \d+ ended"


def closed(code):
    return rf"^connection closed {code:#x}$"


OPEN = "^connection open$"


def many(streams, data):
    return [it for stream in range(0, 4 * streams, 4) for it in request(stream, data)]


def cut(stream, data, size):
    return [send(stream, data[at : at + size]) for at in range(0, len(data), size)]


CASES = {
    "a page": (CONTROL + request(0, get(b"/")), [answered(200), OPEN]),
    "a request byte by byte": (
        CONTROL + [it for part in cut(0, get(b"/"), 1) for it in (part, "pause 1")] + ["end 0"],
        [answered(200), OPEN],
    ),
    "no path": (CONTROL + request(0, frame(1, section((b":method", b"GET")))), [answered(400), OPEN]),
    "no field": (CONTROL + request(0, frame(1, section())), [answered(400), OPEN]),
    "an empty path": (CONTROL + request(0, get(b"")), [answered(400), OPEN]),
    "a path with a NUL": (CONTROL + request(0, get(b"/\0x")), [answered(400), OPEN]),
    "a path without a slash": (CONTROL + request(0, get(b"-private/secret")), [answered(400), OPEN]),
    "the longest path": (CONTROL + request(0, get(b"/" * (MOST_PATH - 1))), [r"^stream 0 .* status (200|404) ", OPEN]),
    "a path that is too long": (CONTROL + request(0, get(b"/" * MOST_PATH)), [answered(414), OPEN]),
    "a path of 60,000 bytes": (CONTROL + request(0, get(b"/" * 60000)), [answered(414), OPEN]),
    "a path out of the folder": (CONTROL + request(0, get(b"/../secret")), [answered(404), OPEN]),
    "a path to a sibling folder": (CONTROL + request(0, get(b"/../www-private/secret")), [answered(404), OPEN]),
    "a link out of the folder": (CONTROL + request(0, get(b"/link")), [answered(404), OPEN]),
    "a link inside the folder": (CONTROL + request(0, get(b"/inside")), [answered(200), OPEN]),
    "a folder": (CONTROL + request(0, get(b"/folder")), [answered(404), OPEN]),
    "a pipe": (CONTROL + request(0, get(b"/pipe")), [answered(404), OPEN]),
    "a large file": (CONTROL + request(0, get(b"/large")), [r"^stream 0 .* received 2\d{6} status 200 ", OPEN]),
    "the longest body": (
        CONTROL + [send(0, get(b"/") + frame(0, b"", MOST_BODY)), f"fill 0 {MOST_BODY}", "end 0"],
        [answered(200), OPEN],
    ),
    "a body that is too long": (
        CONTROL + [send(0, get(b"/") + frame(0, b"", MOST_BODY + 1)), f"fill 0 {MOST_BODY + 1}", "end 0"],
        [answered(413), OPEN],
    ),
    "a body of 300 MB, not sent": (
        CONTROL + [send(0, get(b"/") + frame(0, b"", 300 << 20)), f"fill 0 {300 << 20}"],
        [answered(413), OPEN],
    ),
    "fields beyond the limit": (CONTROL + request(0, get(b"/", (b"x", b"y" * LIMIT))), [answered(431), OPEN]),
    "a section longer than any": (
        CONTROL + [send(0, frame(1, b"", 4 * LIMIT + 21)), f"fill 0 {4 * LIMIT + 21}"],
        [answered(431), OPEN],
    ),
    "a section of any length": (CONTROL + [send(0, frame(1, b"", 1 << 61)), f"fill 0 {50 << 20}"], [answered(431), OPEN]),
    "sections announced and not sent": (CONTROL + [send(4 * it, frame(1, b"", 4 * LIMIT + 20)) for it in range(100)], [OPEN]),
    "a frame of an unknown type and any length": (
        CONTROL + [send(0, frame(0x21, b"", 1 << 61)), f"fill 0 {50 << 20}"],
        ["^stream 0 sent 5242", OPEN],
    ),
    "a request that ends in a frame": (CONTROL + [send(0, get(b"/")[:-1]), "end 0"], [closed(0x106)]),
    "an empty request": (CONTROL + ["end 0"], [r"^stream 0 .* (reset|stopped) 0x10d$", OPEN]),
    "a body before the fields": (CONTROL + [send(0, frame(0, b"x"))], [closed(0x105)]),
    "settings in a request": (CONTROL + [send(0, frame(4, b""))], [closed(0x105)]),
    "three sections": (CONTROL + [send(0, 3 * get(b"/"))], [closed(0x105)]),
    "an invalid section": (CONTROL + request(0, frame(1, b"\0\0\xff\x3f")), [closed(0x200)]),
    "settings twice": (CONTROL + [send(2, frame(4, b""))], [closed(0x105)]),
    "settings that are cut": ([send(2, b"\0" + frame(4, b"\x01"))], [closed(0x106)]),
    "settings of any length": ([send(2, b"\0" + frame(4, b"", 1 << 40))], [closed(0x107)]),
    "no settings": ([send(2, b"\0" + frame(7, b"\0"))], [closed(0x10A)]),
    "a control stream that ends": (CONTROL + ["end 2"], [closed(0x104)]),
    "a control stream that is reset": (CONTROL + ["pause 200", "reset 2"], [closed(0x104)]),
    "two control streams": (CONTROL + [send(6, b"\0")], [closed(0x103)]),
    "a push stream": (CONTROL + [send(6, b"\1")], [closed(0x103)]),
    "an unknown stream of any length": (CONTROL + [send(6, b"\x21"), f"fill 6 {50 << 20}"], ["^stream 6 sent 5242", OPEN]),
    "an invalid instruction": (CONTROL + [send(6, ENCODER + b"\x80\0")], [closed(0x201)]),
    "a section that is blocked": (
        CONTROL + [send(6, ENCODER), send(0, BLOCKED), "end 0", "pause 100", send(6, INSERTION)],
        [answered(200), OPEN],
    ),
    "a body after a section that is blocked": (
        CONTROL + [send(0, BLOCKED), f"fill 0 {10 << 20}"],
        ["^stream 0 sent 65536 ", OPEN],
    ),
    "a section that is blocked, and reset": (
        CONTROL
        + [send(6, ENCODER), send(0, BLOCKED), "pause 100", "reset 0", "pause 100", send(6, INSERTION)]
        + request(4, get(b"/")),
        [answered(200, 4), OPEN],
    ),
    "more requests than may be open": (CONTROL + many(120, get(b"/")), [answered(200, 4 * 99), OPEN]),
    "an echo of more fields than fit": (
        CONTROL + [send(0, get(b"/echo") + frame(0, b"x\ty\n" * 10000)), "end 0"],
        [answered(200), OPEN],
    ),
    "an echo without lines": (CONTROL + [send(0, get(b"/echo") + frame(0, b"x" * 1000)), "end 0"], [answered(200), OPEN]),
    "events from any place": (CONTROL + request(0, get(b"/live/events?from=99999999999999999999")), [answered(200), OPEN]),
    "events of a query that is cut": (CONTROL + request(0, get(b"/live/events?")), [answered(200), OPEN]),
    "reports": (CONTROL + many(20, get(b"/report") + frame(0, b"\xff" * MOST_BODY)), [answered(200, 76), OPEN]),
}
# Cases with a small window: the client reads 1,024 bytes of each answer, and no more.
SLOW = {
    "events that nobody takes": (
        CONTROL
        + many(99, get(b"/no", (b"x", b"y" * 30000)))
        + ["pause 2000"]
        + [it for stream in range(396, 508, 4) for it in request(stream, get(b"/live/events"))],
        [OPEN],
    ),
    "large files that nobody takes": (CONTROL + many(99, get(b"/large")), [r"^stream 392 .* received 1024 status 200", OPEN]),
    "echoes that nobody takes": (
        CONTROL + many(99, get(b"/echo", (b"x", b"\xff" * 60000))),
        [r"^stream 392 .* status 503 ", OPEN],
    ),
}
# Cases that are run again while allocations are refused: one in each of these numbers.
REFUSED = [
    "a page",
    "a large file",
    "the longest body",
    "a section that is blocked",
    "fields beyond the limit",
    "an echo of more fields than fit",
    "events from any place",
    "reports",
    "a section of any length",
]
ONE_IN = [3, 11, 31, 101]
# How a connection ends then: by H3_INTERNAL_ERROR or QUIC's INTERNAL_ERROR, or it never begins.
ENDS = {"0x102", "0x1", "0"}
MOST_CONNECTIONS = 32
# How many cases run at a time.
AT_ONCE = 10


# ---- The server


def free_port():
    with socket.socket(socket.AF_INET, socket.SOCK_DGRAM) as udp:
        udp.bind(("127.0.0.1", 0))
        return udp.getsockname()[1]


def make_site(folder):
    """Makes what the cases ask for, and what they must not get."""
    os.makedirs(f"{folder}/www/folder")
    os.makedirs(f"{folder}/www-private")
    for name, text in (("www/index.html", "a page"), ("www-private/secret", "secret"), ("secret", "secret")):
        with open(f"{folder}/{name}", "w", encoding="ascii") as file:
            file.write(text)
    with open(f"{folder}/www/large", "wb") as file:
        file.write(bytes(2 << 20))
    os.symlink("../secret", f"{folder}/www/link")
    os.symlink("index.html", f"{folder}/www/inside")
    os.mkfifo(f"{folder}/www/pipe")


def memory_of(process):
    """Returns the most memory that a process has had, in MB."""
    with open(f"/proc/{process.pid}/status", encoding="ascii") as status:
        return int(re.search(r"^VmHWM:\s+(\d+) kB", status.read(), re.M)[1]) // 1024


@contextmanager
def serve(program, folder, **variables):
    """Runs the server. At the end it must be there, and end with status 0."""
    port = free_port()
    words = [
        program,
        "--port",
        str(port),
        "--folder",
        f"{folder}/www",
        "--log",
        f"{folder}/log",
        "--certificate",
        f"{folder}/certificate.pem",
        "--key",
        f"{folder}/key.pem",
    ]
    with open(f"{folder}/said", "w", encoding="utf-8") as said:
        server = subprocess.Popen(words, stderr=said, env={**os.environ, "ASAN_OPTIONS": SANITIZER, **variables})
    time.sleep(0.5)
    try:
        yield server, port
    finally:
        server.send_signal(signal.SIGTERM)
        try:
            status = server.wait(20)
        except subprocess.TimeoutExpired:
            server.kill()
            status = "none: it did not end"
    if status:
        with open(f"{folder}/said", encoding="utf-8") as said:
            raise Failure(f"the server ended with status {status}:\n{said.read()[-4000:]}")


def run_client(client, port, window, script):
    """Returns the lines that the client prints."""
    words = [client, str(port), str(window)]
    ran = subprocess.run(words, input="\n".join(script) + "\n", capture_output=True, text=True, timeout=SECONDS)
    if ran.returncode:
        raise Failure(f"the client failed: {ran.stderr}")
    return ran.stdout


def check(server, said, patterns):
    """Compares what the client printed with what is expected, and the server's memory with its bound."""
    if server.poll() is not None:
        raise Failure("the server is gone")
    for it in patterns:
        if not re.search(it, said, re.M):
            raise Failure(f"expected {it} in:\n{said}")
    if memory_of(server) > MOST_MEMORY:
        raise Failure(f"the server has had {memory_of(server)} MB, and may have {MOST_MEMORY}")


def build(folder, name, *more):
    """Builds the server, and returns its program."""
    words = ["make", "-s", "-C", SERVER, f"BUILD={folder}/{name}", f"CFLAGS={SANITIZED}", *more]
    subprocess.run(words, check=True)
    return f"{folder}/{name}/http3-server"


def build_client(folder):
    """Builds the client over the library of a server that was built."""
    flags = subprocess.run(["pkg-config", "--cflags", "--libs", *QUIC], check=True, capture_output=True, text=True)
    words = [
        "cc",
        "-std=c11",
        "-D_GNU_SOURCE",
        "-Wall",
        "-Wextra",
        "-Werror",
        *SANITIZED.split(),
        f"-I{SERVER}/../../dist",
        f"{HERE}/client.c",
        f"{SERVER}/frames.c",
        f"{folder}/sanitized/libh3_qpack.a",
        *flags.stdout.split(),
    ]
    subprocess.run([*words, "-o", f"{folder}/client"], check=True)
    return f"{folder}/client"


def run_case(server, port, client, window, case):
    """Runs a case, and returns whether it passed."""
    name, (script, patterns) = case
    try:
        check(server, run_client(client, port, window, script), patterns)
        return True
    except Failure as why:
        print(f"tests/server: FAILED: {name}: {why}", flush=True)
        return False


def run_cases(folder, program, client):
    """Runs all cases with one server, and returns whether each passed."""
    with serve(program, folder) as (server, port):
        with ThreadPoolExecutor(AT_ONCE) as pool:
            passed = list(pool.map(lambda it: run_case(server, port, client, 1 << 24, it), CASES.items()))
        passed += [run_case(server, port, client, 1024, it) for it in SLOW.items()]
        print(f"tests/server: {len(passed)} cases, and the server had at most {memory_of(server)} MB")
    return passed


def run_refused(folder, program, client):
    """Runs cases while allocations are refused: connections end, and the server goes on."""
    said = ""
    for one_in in ONE_IN:
        with serve(program, folder, REFUSE=str(one_in)) as (server, port), ThreadPoolExecutor(AT_ONCE) as pool:
            said += "".join(pool.map(lambda it: run_client(client, port, 1 << 24, CASES[it][0]), REFUSED))
            check(server, said, [])
    ends, answers = re.findall("^connection closed (.*)", said, re.M), len(re.findall(" status 200 .* ended$", said, re.M))
    print(f"tests/server: with allocations refused, {len(ends)} connections ended, and {answers} requests were answered")
    if "0x102" not in ends or not answers or set(ends) - ENDS:
        raise Failure(f"expected answers, and ends by {ENDS}; found {answers}, and {set(ends)}")
    return [True]


def run_crowd(folder, program, client):
    """Opens more connections than the server takes: it refuses the rest, and takes others later."""
    script = ["pause 8000", *CASES["a page"][0]]
    with serve(program, folder) as (server, port), ThreadPoolExecutor(MOST_CONNECTIONS + 8) as pool:
        said = list(pool.map(lambda it: run_client(client, port, 1 << 24, script), range(MOST_CONNECTIONS + 8)))
        check(server, run_client(client, port, 1 << 24, CASES["a page"][0]), CASES["a page"][1])
    answers, refused = sum(" status 200 " in it for it in said), sum("closed 0x2" in it for it in said)
    if (answers, refused) != (MOST_CONNECTIONS, 8):
        raise Failure(f"of {len(said)} connections at once {answers} were answered, and {refused} refused")
    return [True]


def main():
    passed = failed = 0
    with tempfile.TemporaryDirectory() as folder:
        subprocess.run([f"{SERVER}/certificate", folder], check=True, stdout=subprocess.DEVNULL)
        make_site(folder)
        program = build(folder, "sanitized")
        client = build_client(folder)
        refusing = build(folder, "refusing", f"LDFLAGS=-Wl,--wrap=malloc,--wrap=calloc,--wrap=realloc {HERE}/refuse.c")
        for run, it in ((run_cases, program), (run_refused, refusing), (run_crowd, program)):
            try:
                results = run(folder, it, client)
            except Failure as why:
                print(f"tests/server: FAILED: {why}")
                results = [False]
            passed, failed = passed + results.count(True), failed + results.count(False)
    print(f"{passed} passed, {failed} failed")
    return failed > 0


sys.exit(main())
