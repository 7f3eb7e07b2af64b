"""A capture of a run by dumpcap, and the lists of fields that qpk reads in it, in the net log and in the server's log."""
import collections
import json
import os
import shutil
import subprocess
import time

from browsers import GIVEN_UP
from nghttp3 import Failure

TOP = os.path.join(os.path.dirname(os.path.abspath(__file__)), "..", "..")
QPK, LINES = os.path.join(TOP, "qpk"), os.path.join(TOP, "tool", "qpk-capture")


def is_possible():
    """Whether datagrams can be captured here: with dumpcap, as a user who may."""
    if not shutil.which("dumpcap"):
        return False
    interfaces = subprocess.run(["dumpcap", "-D"], capture_output=True, text=True, check=False)
    return "lo" in interfaces.stdout.split()


def start(port, room):
    """Begins to capture the datagrams of a port, and returns the process."""
    process = subprocess.Popen(
        ["dumpcap", "-q", "-i", "lo", "-f", f"udp port {port}", "-w", f"{room}/capture.pcapng"], stderr=subprocess.DEVNULL
    )
    until = time.time() + 10
    while not os.path.exists(f"{room}/capture.pcapng"):
        if time.time() > until or process.poll() is not None:
            raise Failure("dumpcap did not begin")
        time.sleep(0.1)
    return process


def run_qpk(*words, program=QPK):
    """Returns what qpk prints of a capture in which nothing is wrong."""
    ran = subprocess.run([program, *words], capture_output=True, encoding="utf-8", check=False)
    if ran.returncode:
        raise Failure(f"qpk {words[0]} ended with {ran.returncode}: {(ran.stderr or ran.stdout).strip()[:300]}")
    return ran.stdout


def text_of(value):
    """Returns a name or a value of qpk's JSON as text, a character a byte."""
    data = value.encode() if isinstance(value, str) else bytes.fromhex(value["hex"])
    return data.decode("latin-1")


def read_lists(printed):
    """Returns the lists of what qpk show --json printed: for each end that sent them, how often each came on which
    stream."""
    lists = {"client": collections.Counter(), "server": collections.Counter()}
    for line in printed.splitlines():
        it = json.loads(line)
        if "lines" in it:
            fields = tuple((text_of(field["name"]), text_of(field["value"])) for field in it["lines"])
            lists[it["from"]][it["section"], fields] += 1
    return lists


def read_streams(*words):
    """Returns the bytes of the instruction streams of each connection that has any, in hexadecimal, by end and kind."""
    connections = []
    for line in run_qpk("lines", *words, program=LINES).splitlines():
        mark, kind, *_, last = line.split()[line.startswith("@") :]
        if mark == "#":
            connections.append(collections.defaultdict(str))
        elif kind in ("e", "d"):
            connections[-1][mark, kind] += last
    return [it for it in connections if it]


def compare_streams(name, found, expected):
    """Checks that the instruction streams of a file are those of the capture. One of both may end before the other."""
    if len(found) != len(expected):
        raise Failure(f"the {name} has instructions of {len(found)} connections, and the capture of {len(expected)}")
    for own, other in zip(found, expected):
        for mark, kind in {*own, *other}:
            short, long = sorted((own[mark, kind], other[mark, kind]), key=len)
            if not short or not long.startswith(short):
                raise Failure(f"qpk reads other bytes of the stream {mark} {kind} in the {name} than in the capture")


def compare(room, received, sent):
    """Checks that qpk reads the lists that the server received and sent in the capture, in the browser's net log, if it has
    one, and in the server's own log, and finds nothing wrong in any; and that their instructions have the same bytes.
    Returns how many lists it read of each. Of as many streams as are given up, a list may be sent and not received, or
    encoded and not sent."""
    keys = ("--keys", f"{room}/secrets")
    files = {
        "capture": (f"{room}/capture.pcapng", *keys),
        "net log": (f"{room}/net.json", *keys),
        "server log": (f"{room}/log",),
    }
    compared, lists, streams = {}, {}, read_streams(*files["capture"])
    for name, words in files.items():
        if os.path.exists(words[0]):
            compare_streams(name, read_streams(*words), streams)
            lists[name] = read_lists(run_qpk("show", *words, "--json"))
            compared[name] = compare_lists(name, lists[name], received, sent)
            run_qpk("check", *words)
    for name, own in lists.items():
        for end, found in own.items():
            other = lists["capture"][end]
            if sum(((found - other) + (other - found)).values()) > GIVEN_UP:
                raise Failure(f"qpk show reads other lists of the {end} in the {name} than in the capture")
    return ", ".join(f"{count} by qpk in the {name}" for name, count in compared.items())


def compare_lists(name, lists, received, sent):
    """Checks the lists of a file against those of the server, and returns how many are the same."""
    compared = 0
    for end, logged in (("client", received), ("server", sent)):
        expected = collections.Counter((stream, tuple(map(tuple, fields))) for (_, stream), fields in logged.items())
        lacking, other = expected - lists[end], lists[end] - expected
        streams = {stream for stream, _ in lacking} & {stream for stream, _ in other}
        if streams or sum((lacking + other).values()) > GIVEN_UP:
            raise Failure(f"qpk show reads {other} of the {end} in the {name}, and not {lacking}"[:300])
        compared += sum((expected & lists[end]).values())
    return compared
