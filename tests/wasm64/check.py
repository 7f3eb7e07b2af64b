#!/usr/bin/env python3
"""Tests the modules for WebAssembly of dist/ in engines: tests/wasm64/check.py ENGINE,.. QPK [TEST.wasm..].

    node        in Node
    chromium    in a page of headless Chromium

QPK is the program for this processor. qpk-wasm64.wasm must answer the cases of tests/qpk_alike.py as it does, byte for
byte: the output, what is said on standard error, and the status. Left out are the cases of what a system does with
descriptors and memory. Lists are sent through wasm64.wasm. The tests are those that tests/wasm64/build leaves; each must
end with status 0. The last line is 'N passed, M failed'.
"""
import json
import os
import struct
import sys
import tempfile
from pathlib import Path

import engines

TOP = Path(__file__).resolve().parents[2]
sys.path.insert(0, str(TOP / "tests"))
import qpk_alike  # pylint: disable=wrong-import-position # tests/qpk_alike.py

PROGRAM = TOP / "dist" / "qpk-wasm64.wasm"
LIBRARY = TOP / "dist" / "wasm64.wasm"
CORPUS = qpk_alike.DATA / "corpus.qif"
LAYOUT = TOP / "c" / "tests" / "layout.txt"
SHOWN = 10  # cases that differ, of all
STOPPED = 1 << 31  # the status of a run that stops, in batch.js
# A loader where the engine has no 64-bit memory, and one that is given a word with a zero byte.
REFUSED = [
    ("WebAssembly.validate = () => false; loadQpk(bytes)", "qpk needs WebAssembly with 64-bit memory: "),
    ("loadQpk(bytes).then(qpk => qpk.run(['decode', '4\\0']))", "qpk takes no word with a zero byte: "),
]


def pack(module, words, data):
    """Returns a case as batch.js reads it."""
    parts = [struct.pack("<II", module, len(words))]
    for part in (*words, data):
        parts += [struct.pack("<I", len(part)), part]
    return b"".join(parts)


def unpack(outcomes):
    """Yields the status, the output, and what was said on standard error, of each case."""
    at = 0
    while at < len(outcomes):
        (status,) = struct.unpack_from("<I", outcomes, at)
        at += 4
        texts = []
        for _ in range(2):
            (size,) = struct.unpack_from("<I", outcomes, at)
            texts.append(outcomes[at + 4 : at + 4 + size])
            at += 4 + size
        yield (status, *texts)


def list_cases(qpk):
    """Yields the cases with a whole input, and with outputs that take all."""
    for case in qpk_alike.all_cases(qpk):
        if case.kind != "system" and case.system in (qpk_alike.PLAIN, qpk_alike.System(stdin="null")):
            yield case


def compare_program(cases, proved, outcomes):
    """Prints the cases in which the module differs from the program, and returns whether there is none."""
    differing = [it for it in zip(cases, proved, outcomes) if it[1] != it[2]]
    for it in differing[:SHOWN]:
        print(qpk_alike.describe(*it))
    answered = sum(status == 0 for status, _, _ in proved)
    print(f"qpk: {len(cases)} cases, of which {answered} end with status 0; {len(differing)} differ")
    return answered > 0 and not differing


def passes(module, outcome):
    """Returns whether a test of c/, or the lists of the library, ended as it must. Prints the last line, or what it says."""
    status, output, faults = outcome
    lines = (output + faults).decode("utf-8", "replace").splitlines()
    name = Path(module).stem
    passed = status == 0 and bool(output) and not faults
    if name == "layout":
        passed = passed and output == LAYOUT.read_bytes()
        lines = [f"{len(lines)} rows"]
    print(f"{name}: {'passed' if passed else 'FAILED'}: {lines[-1] if lines else ''}")
    return passed


def tells_failure(outcome):
    """Returns whether the test memory, which was given no lists, stopped and said why."""
    status, _, faults = outcome
    return status == STOPPED and b"memory.c:" in faults and b"nlists >= LISTS" in faults


def refuses(script, begin):
    """Returns whether the loader refuses in Node, in one line that begins so."""
    loader = f"const {{loadQpk}} = require({json.dumps(str(engines.LOADER))});"
    bytes_of = f"const bytes = require('fs').readFileSync({json.dumps(str(PROGRAM))});"
    said = engines.ask_node(f"{loader} {bytes_of} {script}.catch(why => console.log(why.message))").splitlines()
    return len(said) == 1 and said[0].startswith(begin)


def run_engine(engine, cases, proved, modules, room):
    """Runs all in an engine, and returns whether each part passed."""
    batch = [pack(0, [os.fsencode(word) for word in it.words], it.data) for it in cases]
    batch += [pack(1 + at, [b"corpus.qif"], CORPUS.read_bytes()) for at in range(len(modules))]
    failing = [at for at, it in enumerate(modules) if Path(it).stem == "memory"]
    batch += [pack(1 + at, [b"corpus.qif"], b"") for at in failing]
    try:
        outcomes = list(unpack(engines.ENGINES[engine](b"".join(batch), [PROGRAM, *modules], room)))
    except (engines.Failure, struct.error) as why:
        print(why)
        return [False]
    results = [len(outcomes) == len(batch), compare_program(cases, proved, outcomes)]
    results += [passes(*it) for it in zip(modules, outcomes[len(cases) :])]
    return results + [tells_failure(it) for it in outcomes[len(cases) + len(modules) :]]


def main(words):
    names = words[0].split(",") if len(words) > 1 else []
    if not names or not set(names) <= set(engines.ENGINES):
        sys.exit(f"usage: tests/wasm64/check.py {'|'.join(engines.ENGINES)},.. QPK [TEST.wasm..]")
    qpk, modules, results = words[1], [LIBRARY, *words[2:]], []
    with tempfile.TemporaryDirectory(prefix="wasm64-") as place:
        room = Path(place)
        cases = list(list_cases(qpk))
        proved = [qpk_alike.Run(it, room)(qpk, []) for it in cases]
        for name in names:
            print(f"in {name}:")
            results += run_engine(name, cases, proved, modules, room)
    if "node" in names:
        results += [refuses(*it) for it in REFUSED]
    print(f"{sum(results)} passed, {len(results) - sum(results)} failed")
    return 0 if all(results) else 1


if __name__ == "__main__":
    sys.exit(main(sys.argv[1:]))
