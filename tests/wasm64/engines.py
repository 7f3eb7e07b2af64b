"""Runs a batch of tests/wasm64/batch.js in Node, or in headless Chromium, and returns the outcomes."""
import http.server
import os
import subprocess
import sys
import threading
from pathlib import Path

HERE = Path(__file__).resolve().parent
sys.path.insert(0, str(HERE.parent))
from chromium import CHROMIUM  # pylint: disable=wrong-import-position # tests/chromium.py

LOADER = HERE.parent.parent / "dist" / "qpk_wasm64.js"
SCRIPTS = [LOADER, HERE / "library.js", HERE / "batch.js"]
# The most seconds that a batch may take, on a busy machine.
SECONDS = 300
RESOLVER = "--host-resolver-rules=MAP * ~NOTFOUND, EXCLUDE 127.0.0.1"


class Failure(Exception):
    """A batch was not run to its end, for this reason."""


def call_node(*words):
    """Runs Node with words, and returns how it ended."""
    return subprocess.run(["node", *words], capture_output=True, text=True, errors="replace", check=False, timeout=SECONDS)


def choose_flags():
    """Returns the words by which Node has 64-bit memory: before version 24 it needs one."""
    version = int(call_node("-p", "process.versions.node").stdout.partition(".")[0] or 0)
    return ["--experimental-wasm-memory64"] if version < 24 else []


def ask_node(script):
    """Returns what a script prints in Node."""
    return call_node(*choose_flags(), "-e", script).stdout


def run_node(batch, modules, room):
    """Runs a batch in Node."""
    outcomes, given = room / "outcomes", room / "batch"
    given.write_bytes(batch)
    ran = call_node(*choose_flags(), HERE / "batch.js", given, outcomes, *modules)
    if ran.returncode:
        raise Failure(f"node: {ran.stderr.strip()[-300:]}")
    return outcomes.read_bytes()


class Handler(http.server.BaseHTTPRequestHandler):
    """Serves the page, its scripts, the batch and the modules, and takes the outcomes."""

    def do_GET(self):
        """Answers with a file of the server's, by its path."""
        body, kind = self.server.files.get(self.path, (None, ""))
        self.send_response(200 if body is not None else 404)
        self.send_header("Content-Type", kind)
        self.send_header("Content-Length", str(len(body or b"")))
        self.end_headers()
        self.wfile.write(body or b"")

    def do_POST(self):
        """Keeps what the page sends: the outcomes, or why there are none."""
        body = self.rfile.read(int(self.headers["Content-Length"]))
        self.send_response(204)
        self.end_headers()
        self.server.sent = (self.path, body)
        self.server.ended.set()

    def log_message(self, *_):
        """Says nothing of requests."""


def run_chromium(batch, modules, room):
    """Runs a batch in a page of headless Chromium."""
    server = http.server.HTTPServer(("127.0.0.1", 0), Handler)
    server.sent, server.ended = None, threading.Event()
    page = "".join(f"<script src=/{it.name}></script>" for it in SCRIPTS)
    server.files = {
        "/": (f"<!doctype html>{page}<script>runPage({len(modules)})</script>".encode(), "text/html"),
        **{f"/{it.name}": (it.read_bytes(), "text/javascript") for it in SCRIPTS},
        "/batch": (batch, "application/octet-stream"),
        **{f"/module/{at}": (Path(it).read_bytes(), "application/wasm") for at, it in enumerate(modules)},
    }
    threading.Thread(target=server.serve_forever, daemon=True).start()
    words = [*CHROMIUM, RESOLVER, f"--user-data-dir={room}/profile", f"http://127.0.0.1:{server.server_port}/"]
    browser = subprocess.Popen(
        words, stdout=subprocess.DEVNULL, stderr=subprocess.DEVNULL, env={**os.environ, "HOME": str(room)}
    )
    try:
        if not server.ended.wait(SECONDS):
            raise Failure(f"Chromium: no outcomes in {SECONDS} seconds")
    finally:
        browser.terminate()
        browser.wait()
        server.shutdown()
        server.server_close()
    path, body = server.sent
    if path != "/outcomes":
        raise Failure(f"Chromium: {body.decode('utf-8', 'replace')[:300]}")
    return body


ENGINES = {"node": run_node, "chromium": run_chromium}
