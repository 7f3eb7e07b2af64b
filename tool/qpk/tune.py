"""Which settings to choose for what a recording has: qpk tune. qpk-capture reads it."""

import json
import os
import subprocess
import sys
from typing import Any, Dict, Iterator, List

from qpk.main import complain, printable
from qpk.places import SCRIPTS
from qpk.streams import SourceError, to_text

CAPACITIES = (0, 256, 512, 1024, 2048, 4096, 8192, 16384, 32768, 65536)
ENOUGH = 0.01  # of what the lists take without a table: what a larger table has to save more
PEERS = {"client": "server", "server": "client"}


def count(words: List[str], program: str) -> List[Dict[str, Any]]:
    """Returns what qpk stats counts in each direction, with the same lists encoded again."""
    command = [sys.executable, str(SCRIPTS / "qpk-report"), "stats", "--json", "--try", ",".join(map(str, CAPACITIES)), *words]
    ran = subprocess.run(
        command, stdout=subprocess.PIPE, stderr=subprocess.PIPE, check=False, env={**os.environ, "QPK": program}
    )
    said = to_text(ran.stderr).strip().splitlines()
    if ran.returncode not in (0, 2):
        raise SourceError(
            said[-1].replace("qpk stats: ", "", 1).replace("--try", "tune") if said else "qpk stats gave no answer"
        )
    for line in said:
        complain(line)
    return [json.loads(it) for it in ran.stdout.splitlines()]


def choose(tried: List[Dict[str, int]]) -> Dict[str, int]:
    """Returns the smallest capacity above which no other one saves much more."""
    least = min(it["bytes"] for it in tried)
    return next(it for it in tried if it["bytes"] - least <= ENOUGH * tried[0]["bytes"])


def advise(it: Dict[str, Any]) -> Iterator[str]:
    """Yields what the lists of a direction take at each capacity, and which settings to choose."""
    end, has_bytes = it.get("from", ""), "sections" in it
    lists = it["sections" if has_bytes else "lists"]
    taken = it["section_bytes"] + it["encoder_stream_bytes"] if has_bytes else it["list_bytes"]
    what = f"took {taken} bytes, sections and encoder stream" if has_bytes else f"have {taken} bytes of names and values"
    yield f"{f'the {end}: ' if end else ''}{lists} lists {what}"
    tried = it.get("tried", [])
    if not lists or not tried:
        yield "  there is nothing to encode again: name a recording with sections that can be decoded"
        return
    chosen = choose(tried)
    for one in tried:
        mark = "  <" if one is chosen else ""
        yield f"  capacity {one['capacity']:>6}  {one['bytes']:>9} bytes, {one['bytes'] / lists:7.1f} a list{mark}"
    setter = f"the {PEERS[end]}" if end in PEERS else "the peer"
    saved = tried[0]["bytes"] - chosen["bytes"]
    if chosen["capacity"]:
        yield f"  set SETTINGS_QPACK_MAX_TABLE_CAPACITY to {chosen['capacity']} at {setter}, which decodes them."
        yield f"  That saves {saved} of the {tried[0]['bytes']} bytes without a table. More capacity saves less than 1 % of them."
    else:
        yield f"  set SETTINGS_QPACK_MAX_TABLE_CAPACITY to 0 at {setter}, which decodes them: a table saves less than 1 %."
    blocked = it.get("blocked_sections", 0)
    if blocked:
        yield f"  {blocked} of the {lists} sections waited. SETTINGS_QPACK_BLOCKED_STREAMS 0 has none wait, for more bytes."


def lines(words: List[str], program: str) -> Iterator[str]:
    """Yields what qpk tune prints of a recording or a capture, which words of qpk stats name."""
    for it in count(words, program):
        if "connection" in it:
            name = printable(it.get("log", ""))
            yield f"connection {it['connection']}{f', {name}' if name else ''}"
        else:
            yield from advise(it)
