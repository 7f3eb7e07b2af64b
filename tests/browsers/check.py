#!/usr/bin/env python3
"""Runs the example server with browsers, and checks every list of fields three ways: tests/browsers/check.py.

A page makes 170 requests, twelve at once, of which 20 are aborted, under four settings, in Chromium and in Firefox. It
compares the fields of requests and answers that it knows. nghttp3 decodes each section again, both ways, and finds the
fields that the server logged. And the browser's own log has the same lists. One run with Chromium is captured, where
dumpcap is installed: qpk show must read the same lists in the capture, in Chromium's net log with raw bytes and in the log of
the server, and qpk check find nothing wrong in any. Last, Chromium opens the live page of the server, and what that shows is
compared with the log. It needs chromium or firefox-esr, and on Debian libnss3-tools for Firefox, the packages of the server and
libnghttp3-3. A browser that is not installed is left out. It uses addresses of this machine alone.

The last line is 'N passed, M failed'.

    --planted    plants three faults in a copy of the server, and checks that each is found by each browser's run
"""
import base64
import json
import os
import shutil
import socket
import subprocess
import sys
import tempfile
import time

import capture
import live
from browsers import BROWSERS
from nghttp3 import Decoder, Failure
from processes import new_folder, stop

HERE = os.path.dirname(os.path.abspath(__file__))
PAGES = os.path.join(HERE, "pages")
SERVER = os.path.join(HERE, "..", "..", "examples", "http3-server")
SETTINGS = {
    "no table": ["--capacity", "0", "--blocked", "0", "--encoder-capacity", "0"],
    "a table of 4,096 bytes": ["--encoder-capacity", "4096"],
    "the encoder stream 5 ms late": ["--late", "5"],
    "a table of 65,536 bytes, one datagram in 20 lost": [
        "--capacity",
        "65536",
        "--encoder-capacity",
        "65536",
        "--blocked",
        "100",
        "--lose",
        "20",
    ],
}
# Faults: a value of an answer, a value of a request, and an instruction that is not sent.
FAULTS = {
    "a wrong field out": (
        "h3_qpack_encoder_encode(&c->encoder, (uint64_t)s->id, nva, nvlen,",
        "h3_qpack_encoder_encode(&c->encoder, (uint64_t)s->id, nva, nvlen - (s->id == 400),",
    ),
    "a wrong field in": (
        "  for (size_t i = 0; i < d.fields; i++) {",
        "  if (s->id == 400) text[w.len - 1] ^= 1;\n  for (size_t i = 0; i < d.fields; i++) {",
    ),
    "a lost instruction": (
        "    send_on(c, &c->own[ENCODER], piece, len);",
        "    static int pieces;\n    if (++pieces != 20) send_on(c, &c->own[ENCODER], piece, len);",
    ),
}
# The types of an encoder's and of a decoder's stream (RFC 9204, section 4.2).
ENCODER_STREAM, DECODER_STREAM = 2, 3
# The run that is captured.
CAPTURED = ("Chromium", "a table of 4,096 bytes")
SECONDS = 60


# ---- What the server logged


def read_events(path):
    with open(path, encoding="ascii") as log:
        return [json.loads(line) for line in log if line.endswith("\n")]


def lists_of(events, kind):
    """Returns the list of fields of each section that the server logged, by connection and stream."""
    return {(e["connection"], e["id"]): e["fields"] for e in events if e["event"] == kind}


def decode_again(events, bytes_kind, section_kind, capacity_kind):
    """Returns the same lists as nghttp3 decodes them."""
    decoders, lists = {}, {}
    capacities = {e["connection"]: e["capacity"] for e in events if e["event"] == capacity_kind}
    for event in events:
        number = event["connection"]
        if number not in capacities:
            continue
        decoder = decoders.setdefault(number, Decoder(capacities[number]))
        found = []
        if event["event"] == bytes_kind and event["type"] == ENCODER_STREAM:
            found = decoder.receive(bytes.fromhex(event["hex"]))
        elif event["event"] == section_kind:
            found = decoder.section(event["id"], bytes.fromhex(event["hex"]))
        lists.update({(number, stream): fields for stream, fields in found})
    return lists


# ---- A run


def free_port():
    with socket.socket(socket.AF_INET, socket.SOCK_DGRAM) as udp:
        udp.bind(("127.0.0.1", 0))
        return udp.getsockname()[1]


def find_report(path):
    """Returns the page's report, or None before the server logged it."""
    if not os.path.exists(path):
        return None
    with open(path, encoding="ascii") as log:
        line = next((line for line in log if '"event":"report"' in line and line.endswith("\n")), None)
    return json.loads(json.loads(line)["text"]) if line else None


def run(browser, program, certificates, key, options, room, is_captured=False, pages=PAGES):
    """Runs the server and a browser, which opens the page of a folder, and returns the page's report."""
    port = free_port()
    capturing = capture.start(port, room) if is_captured else None
    server = subprocess.Popen(
        [
            program,
            "--port",
            str(port),
            "--folder",
            pages,
            "--log",
            f"{room}/log",
            "--certificate",
            f"{certificates}/certificate.pem",
            "--key",
            f"{certificates}/key.pem",
            *options,
        ],
        stderr=subprocess.DEVNULL,
    )
    opened = browser.start(port, certificates, key, room)
    report, until = None, time.time() + SECONDS
    try:
        while report is None and time.time() < until and server.poll() is None:
            time.sleep(0.2)
            report = find_report(f"{room}/log")
        time.sleep(0.3)
    finally:
        stop(opened)
        status = stop(server)
        if capturing:
            stop(capturing)
    if report is None:
        raise Failure(f"the page did not report within {SECONDS} seconds")
    if status:
        raise Failure(f"the server ended with status {status}")
    return report


def compare(browser, report, events, room, is_captured=False):
    """Compares what a run left, and returns what was compared. Raises Failure if anything differs."""
    if report["wrong"]:
        raise Failure("the page found " + report["wrong"][0])
    if report["protocols"] != ["h3"]:
        raise Failure(f"the page was loaded by {report['protocols']}")
    ended = [e for e in events if e["event"] == "end" and e["code"] != 0x100]
    if ended:
        raise Failure("the server ended the connection: " + ended[0]["why"])
    received, sent = lists_of(events, "section received"), lists_of(events, "section sent")
    if decode_again(events, "received", "section received", "begin") != received:
        raise Failure("nghttp3 decodes other fields of what was received")
    if decode_again(events, "sent", "section sent", "settings") != sent:
        raise Failure("nghttp3 decodes other fields of what was sent")
    compared = browser.compare(room, received, sent)
    shown = f", {capture.compare(room, received, sent)}" if is_captured else ""
    return (
        f"{report['compared']} fields by the page, {len(received) + len(sent)} lists by nghttp3, "
        f"{compared} by {browser.name}'s log{shown}"
    )


def check(browser, program, certificates, key, options, is_captured=False):
    """Runs a setting, and returns what was compared. Raises Failure if anything differs."""
    with new_folder() as room:
        report = run(browser, program, certificates, key, options, room, is_captured)
        return compare(browser, report, read_events(f"{room}/log"), room, is_captured)


def make_certificate(folder):
    """Makes a certificate in a folder, and returns the hash of its key."""
    made = subprocess.run([f"{SERVER}/certificate", folder], check=True, capture_output=True, text=True)
    base64.b64decode(made.stdout.strip(), validate=True)
    return made.stdout.strip()


def build(folder, sources):
    """Builds the server of a folder, and returns its program."""
    subprocess.run(["make", "-s", "-C", sources, f"BUILD={folder}", f"DIST={SERVER}/../../dist"], check=True)
    return f"{folder}/http3-server"


def plant(folder, fault):
    """Builds a server with a fault, and returns its program."""
    sources = f"{folder}/sources"
    shutil.copytree(SERVER, sources, ignore=shutil.ignore_patterns("build"))
    with open(f"{sources}/qpack.c", encoding="utf-8") as file:
        text = file.read()
    if text.count(fault[0]) != 1:
        raise Failure("the fault has no place in qpack.c")
    with open(f"{sources}/qpack.c", "w", encoding="utf-8") as file:
        file.write(text.replace(*fault))
    return build(f"{folder}/build", sources)


def main():
    browsers = []
    for browser in BROWSERS:
        lacking = [program for program in browser.programs if not shutil.which(program)]
        if lacking:
            print(f'not shown: the example server with {browser.name}, without {" and ".join(lacking)}')
        else:
            browsers.append(browser)
    passed = failed = 0
    with tempfile.TemporaryDirectory() as folder:
        key = make_certificate(folder)
        for browser in browsers:
            if "--planted" in sys.argv[1:]:
                found = try_faults(browser, folder, key)
            else:
                found = try_settings(browser, build(f"{folder}/build", SERVER), folder, key)
            passed, failed = passed + found.count(True), failed + found.count(False)
            if "--planted" not in sys.argv[1:] and browser.name == "Chromium":
                found = [try_live_page(f"{folder}/build/http3-server", folder, key)]
                passed, failed = passed + found.count(True), failed + found.count(False)
    print(f"{passed} passed, {failed} failed")
    return failed > 0


def try_live_page(program, folder, key):
    """Opens the live page, and returns whether it shows what it must."""
    try:
        print(f"tests/browsers: Chromium, the live page: {live.check(program, folder, key, free_port())}", flush=True)
        return True
    except Failure as why:
        print(f"tests/browsers: FAILED: Chromium, the live page: {why}", flush=True)
        return False


def try_settings(browser, program, folder, key):
    """Runs each setting with a browser, and returns whether each passed."""
    passed = []
    for name, options in SETTINGS.items():
        try:
            is_captured = (browser.name, name) == CAPTURED and capture.is_possible()
            compared = check(browser, program, folder, key, options, is_captured)
            print(f"tests/browsers: {browser.name}, {name}: {compared}", flush=True)
            passed.append(True)
        except Failure as why:
            print(f"tests/browsers: FAILED: {browser.name}, {name}: {why}", flush=True)
            passed.append(False)
    return passed


def try_faults(browser, folder, key):
    """Runs a server with each fault with a browser, and returns whether each was found."""
    found = []
    for name, fault in FAULTS.items():
        with tempfile.TemporaryDirectory() as copy:
            try:
                check(browser, plant(copy, fault), folder, key, [])
                print(f"tests/browsers: NOT FOUND: {browser.name}, {name}")
                found.append(False)
            except Failure as why:
                print(f"tests/browsers: {browser.name}, {name}: {why}")
                found.append(True)
    return found


if __name__ == "__main__":
    sys.exit(main())
