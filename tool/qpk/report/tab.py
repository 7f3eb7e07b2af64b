"""What reads files in a page: the scripts of the folder tab, which a worker runs, and the program qpk for WebAssembly."""

import base64
import zlib
from pathlib import Path

from qpk.places import DIST

from .page import Reader

FOLDER = Path(__file__).resolve().parent.parent / "tab"
PROGRAM = DIST / "qpk-wasm64.wasm"
# What the worker runs, in this order, and what the page itself runs.
OF_WORKER = (
    "tables.js",
    "qpack.js",
    "bytes.js",
    "lines.js",
    "events.js",
    "columns.js",
    "stats.js",
    "findings.js",
    "data.js",
    "reader.js",
    "script_reader.js",
    "captures.js",
    "datagrams.js",
    "chacha.js",
    "keys.js",
    "quic.js",
    "streams.js",
    "connections.js",
    "strangers.js",
    "packets.js",
    "netlog.js",
    "qlog.js",
    "source.js",
    "typed.js",
    "worker.js",
)
OF_PAGE = ("typing.js", "tab.js")
LOADER = DIST / "qpk_wasm64.js"  # of the program
PARTS = """<script type="text/plain" id="reader">{worker}</script>
{program}"""
PROGRAM_PART = """<script type="application/octet-stream" id="program">{module}</script>
"""
POLICY = " 'wasm-unsafe-eval'; worker-src blob:"


def make_reader() -> Reader:
    """Returns what reads files. Without the program JavaScript does, and the page says so."""
    worker, script = ("".join((FOLDER / it).read_text("utf-8") for it in names) for names in (OF_WORKER, OF_PAGE))
    worker += LOADER.read_text("utf-8")
    program = ""
    if PROGRAM.is_file():
        packed = zlib.compress(PROGRAM.read_bytes(), 9)
        program = PROGRAM_PART.format(module=base64.b64encode(packed).decode())
    style = (FOLDER / "tab.css").read_text("utf-8")
    return Reader(script, style, PARTS.format(worker=worker, program=program), POLICY)
