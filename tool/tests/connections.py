"""Connections that tests make, or that are in tests/captured, as tool/qpk-capture reads them by libcrypto."""
import io
import subprocess
import tempfile

from captures import CAPTURED, KEPT
from program import PROGRAM, build
from running import run_tests

# These are in tool/, which captures.py puts into the path of modules.
import qpk.files
import qpk.libcrypto
import qpk.source
from qpk.findings import Marker
from qpk.streams import SourceError
from sealed import Made, ip_packets, pcapng

LINES = KEPT.read_text("utf-8").splitlines()[1:]
WORDS = [line.split(" ", 1)[1] for line in LINES]  # without their times
# Captures: their connections, each with its sections, instructions of encoders and of decoders.
WHOLE = {
    "chromium.pcapng": [(18, 110, 24)],
    "firefox.pcapng": [(114, 57, 116)],
    "ngtcp2-gso.pcapng": [(40, 7, 32)],
    "ngtcp2-update.pcapng": [(10, 6, 5), (12, 3, 6), (12, 6, 12)],
}


def read(data, keys=""):
    """Returns the connections of a file, with a key log."""
    with tempfile.NamedTemporaryFile("w") as log:
        log.write(keys)
        log.flush()
        return qpk.source.read_file(io.BytesIO(data), qpk.source.Wanted(log.name if keys else None))


def words_of(connection):
    """Returns the lines of a connection, without their times."""
    return [line.split(" ", 1)[1] for line in connection.lines]


def joined(lines):
    """Returns what lines have, of each stream in one text: bytes that come late are in another line."""
    found = {}
    for line in lines:
        *words, last = line.split(" ")
        found[tuple(words)] = found.get(tuple(words), "") + last
    return found


def made(**more):
    """Returns a connection that has the lines of Chromium."""
    return Made(**more).begin().take(LINES)


def file_of(connection):
    """Returns a capture of a connection that is made, with its secrets."""
    return pcapng(ip_packets(connection.datagrams), secrets=connection.keys())


def assert_whole(connection, data=None, **more):
    """Asserts that a connection that is made is read as it was, and lacks nothing."""
    (found,) = read(file_of(connection) if data is None else data, **more)
    assert words_of(found) == WORDS, (len(found.lines), found.missing, found.seen)
    assert not found.seen.lacks() and not found.missing, (found.seen, found.missing)
    return found


def refusal(data, keys="", **more):
    """Returns why a file is not read."""
    try:
        read(data, keys, **more)
    except SourceError as error:
        return str(error)
    raise AssertionError("it was read")


def marker_of(connection):
    """Has qpk check a connection, and returns what is marked, and the lines."""
    recording = "\n".join(connection.lines).encode()
    ran = subprocess.run([PROGRAM, "check", "-"], input=recording, capture_output=True, check=False)
    marker = Marker(connection.seen)
    return marker, [line.decode() for line in marker.lines(ran.stdout.splitlines(True))], marker.status(ran.returncode)


def packets_of(name):
    """Returns the type of the links of a capture, its packets and its key log."""
    secrets = []
    capture = qpk.files.Capture(io.BytesIO((CAPTURED / name).read_bytes()), secrets.append)
    packets = list(capture.packets())
    return packets[0].link, [(it.time, it.data) for it in packets], "".join(secrets)


def run_with_libcrypto(functions, name):
    """Runs the tests among functions, over the program of dist/ if that can be built. Returns the status."""
    if qpk.libcrypto.Library.get() is None:
        print("not shown: captures by libcrypto, which is not installed")
        print(f"{name}: nothing was tested")
        return 0
    build()
    return run_tests(functions, name, "tool/qpk-capture")
