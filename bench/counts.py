#!/usr/bin/env python3
"""Holds the counts of the library's calls to bounds, which say the same on every machine, as times do not.

    bench/counts.py [ARCHIVE]     compares the counts over an archive of the library, or over that of dist/
    bench/counts.py --record      counts over dist/, and writes bench/counts.tsv

bench/counts.c plays some connections of each kind of traffic, with each call on cold caches. Counted are, by phase of a
list: allocations; the instructions of the proved functions; and the lines of 64 bytes that it touches, of their code, and
of data with those of the heap and the stack. Callgrind counts all but the first. What compilers and the C library make
is left out: the layer in C, the heap, copies. Each function begins at a line, wherever the linker puts it.

counts.tsv has a bound for each count, 2 % above what was measured, and 4 % for lines: assemblers write some instructions in
other lengths, and a compiler places some data. A count above its bound is a fault. One that is more than 6 % below is named,
so that its bound can be lowered by --record. Then the script plants faults: each bound in turn is set below its count, and
far above, which must be found.

Without valgrind, or on another processor than x86-64, only allocations are compared, and a line `not shown: ..` says so.
The exit status is 1 if there is a fault.
"""
import datetime
import os
import platform
import re
import shutil
import subprocess
import sys
import tempfile
from concurrent.futures import ThreadPoolExecutor
from pathlib import Path

BENCH = Path(__file__).resolve().parent
TOP = BENCH.parent
DATA = TOP / "crates" / "qpack_tests" / "data"
BOUNDS = BENCH / "counts.tsv"
# How the names of counts of lines end: their bounds have more room.
OF_CODE, OF_DATA = "lines of code a list", "lines of data a list"
# How far below its bound a count is named.
BELOW = 0.94
# The phases of a list, and the functions of counts.c for each.
PHASES = {"encode": "encode_list", "receive": "receive_stream", "decode": "decode_section", "hear": "hear_answer"}
# The last cache has the size that counts.c fills; the first ones are so small that the last one sees each line.
CACHES = ["--I1=128,1,64", "--D1=128,1,64", "--LL=262144,16,64"]
ALIGNED = [f"--set-section-alignment={it}=64" for it in (".text*", ".rodata*")]
WRAPPED = "-Wl," + ",".join(f"--wrap={it}" for it in ("malloc", "calloc", "realloc", "free"))


def run(*command):
    """Runs a command and returns what it prints; if it fails, says what it said, and ends."""
    ran = subprocess.run(command, stdin=subprocess.DEVNULL, capture_output=True, text=True, errors="replace")
    if ran.returncode:
        sys.exit(f"{ran.stdout}{ran.stderr}counts: failed: {command[0]}")
    return ran.stdout


def make_archive(room):
    """Builds the library of dist/, and returns its archive."""
    run("make", "-s", "-C", TOP / "dist", f"BUILD={room / 'made'}", room / "made" / "libh3_qpack.a")
    return room / "made" / "libh3_qpack.a"


def build(archive, room):
    """Builds counts.c over the archive, with each function at the beginning of a line, and returns the program."""
    program, aligned = room / "counts", room / "aligned.a"
    run("objcopy", *ALIGNED, archive, aligned)
    words = ["-std=c11", "-D_GNU_SOURCE", "-Wall", "-Wextra", "-Werror", "-O2", f"-I{TOP / 'dist'}"]
    words.append("-fno-optimize-sibling-calls")  # callgrind sees the end of a function at its return
    run(os.environ.get("CC", "cc"), *words, BENCH / "counts.c", aligned, WRAPPED, "-o", program)
    return program


def read_rows(text):
    """Returns the rows of a table of counts.c, each by the names of its columns."""
    head, *rows = (line.split("\t") for line in text.splitlines())
    return [dict(zip(head, row)) for row in rows]


def name_of(row):
    """Returns how the names of a setting's counts begin."""
    return f"{row['traffic']} {row['capacity']}"


def count_allocations(rows):
    """Returns the allocations a list of each phase, and of the first encode of a connection."""
    counts = {}
    for row in rows:
        for phase in PHASES:
            counts[f"{name_of(row)} {phase}: allocations a list"] = int(row[phase]) / int(row["lists"])
        counts[f"{name_of(row)} first encode: allocations"] = int(row["first"]) / int(row["connections"])
    return counts


def is_proved(function):
    """Returns whether a function is of the assembly: such have paths as names, or are the exports that C calls."""
    return "::" in function or function.startswith("h3q_")


def read_costs(path):
    """Returns the events of a dump of callgrind, summed over the proved functions, and over all. A line after `calls=` is
    of the function that is called, and counts there."""
    events, is_of_call, function = [], False, ""
    proved, all_of_them = {}, {}
    for line in path.read_text(errors="replace").splitlines():
        if line.startswith("events: "):
            events = line.split()[1:]
            proved, all_of_them = dict.fromkeys(events, 0), dict.fromkeys(events, 0)
        elif line.startswith("fn="):
            function = line[3:]
        elif line.startswith("calls="):
            is_of_call = True
        elif re.match(r"[\d+*-]", line) and not is_of_call:
            for event, cost in zip(events, line.split()[1:]):
                all_of_them[event] += int(cost)
                proved[event] += int(cost) if is_proved(function) else 0
        elif is_of_call:
            is_of_call = False
    return proved, all_of_them


def count_phase(program, phase, rows, room):
    """Has callgrind count in one phase, and returns the counts. It leaves a dump for each setting, in their order."""
    out = room / phase
    words = [f"--callgrind-out-file={out}", "--compress-strings=no", "--compress-pos=no", "--cache-sim=yes", *CACHES]
    words += [f"--toggle-collect={PHASES[phase]}", "--zero-before=begin_setting", "--dump-before=end_setting"]
    run("valgrind", "--tool=callgrind", *words, program, DATA, phase)
    counts = {}
    for number, row in enumerate(rows, 1):
        proved, all_of_them = read_costs(out.with_name(f"{phase}.{number}"))
        front, lists = f"{name_of(row)} {phase}", int(row["lists"])
        counts[f"{front}: instructions a field"] = proved["Ir"] / int(row["fields"])
        counts[f"{front}: {OF_CODE}"] = proved["ILmr"] / lists
        counts[f"{front}: {OF_DATA}"] = (all_of_them["DLmr"] + all_of_them["DLmw"]) / lists
    return counts


def why_not_shown():
    """Returns why callgrind can't count here, if it can't."""
    if platform.machine() not in ("x86_64", "AMD64"):
        return f"on {platform.machine()}: the bounds are of x86-64"
    return None if shutil.which("valgrind") else "without valgrind"


def count_all(archive, room):
    """Returns all counts by their names, and why some are left out, if they are."""
    program = build(archive, room)
    rows = read_rows(run(program, DATA))
    counts, why = count_allocations(rows), why_not_shown()
    if not why:
        with ThreadPoolExecutor(os.cpu_count()) as pool:
            for found in pool.map(lambda phase: count_phase(program, phase, rows, room), PHASES):
                counts.update(found)
    return {name: round(count, 2) for name, count in sorted(counts.items())}, why


def bound_for(name, count):
    """Returns the bound of a count that was measured."""
    return count * (1.04 if name.endswith((OF_CODE, OF_DATA)) else 1.02)


def write_bounds(counts):
    """Returns the text of counts.tsv for these counts."""
    lines = [f"# Written by bench/counts.py --record on {datetime.date.today()}.", "count\tmeasured\tbound"]
    lines += [f"{name}\t{count:.2f}\t{bound_for(name, count):.2f}" for name, count in counts.items()]
    return "\n".join(lines) + "\n"


def read_bounds(text):
    """Returns the bounds of a text of counts.tsv by the names of their counts."""
    rows = [line.split("\t") for line in text.splitlines() if not line.startswith("#")]
    return {name: float(bound) for name, _, bound in rows[1:]}


def find_faults(counts, bounds):
    """Returns a line for each count above its bound, and for each that has none."""
    found = [f"{name}: there is no bound" for name in counts if name not in bounds]
    for name, count in counts.items():
        bound = bounds.get(name, count)
        if count > bound:
            share = f"{count / bound - 1:.1%} above" if bound else "above"
            found.append(f"{name}: {count:.2f}, {share} its bound of {bound:.2f}")
    return found


def find_low(counts, bounds):
    """Returns a line for each count far below its bound."""
    return [
        f"{name}: {count:.2f}, {1 - count / bounds[name]:.1%} below its bound of {bounds[name]:.2f}"
        for name, count in counts.items()
        if count < BELOW * bounds.get(name, 0)
    ]


def with_bound(text, name, bound):
    """Returns a text of counts.tsv in which one count has another bound."""
    changed, count = re.subn(rf"^({re.escape(name)}\t\S+\t).*$", rf"\g<1>{bound:.2f}", text, flags=re.M)
    assert count == 1, f"counts.tsv has {count} rows of {name}"
    return changed


def names_alone(lines, name):
    """Returns whether these lines are one, of this count."""
    return len(lines) == 1 and lines[0].startswith(f"{name}: ")


def plant_bounds(counts, text):
    """Gives each count in turn a bound below it, and one far above it. Returns those where this is not found, and found
    alone. Counts of 0 are left out."""
    bounds = read_bounds(text)
    low_before = find_low(counts, bounds)
    missed = []
    for name, count in counts.items():
        if not count:
            continue
        below = read_bounds(with_bound(text, name, count - 0.01))
        above = read_bounds(with_bound(text, name, count / BELOW + 0.02))
        if not names_alone(find_faults(counts, below), name):
            missed.append(f"{name}: a bound below the count was not found")
        if not names_alone([it for it in find_low(counts, above) if it not in low_before], name):
            missed.append(f"{name}: a bound far above the count was not found")
    return missed


def main(words):
    if len(words) > 1 or words[:1] in (["-h"], ["--help"]):
        sys.exit(__doc__)
    is_recorded = words == ["--record"]
    with tempfile.TemporaryDirectory(prefix="h3-qpack-counts-") as name:
        room = Path(name)
        archive = make_archive(room) if is_recorded or not words else Path(words[0]).resolve()
        counts, why = count_all(archive, room)
    if is_recorded and why:
        sys.exit(f"counts: nothing is recorded {why}")
    if is_recorded:
        BOUNDS.write_text(write_bounds(counts), encoding="utf-8")
        print(f"counts: {len(counts)} recorded in {BOUNDS.name}")
        return 0
    if why:
        print(f"not shown: the instructions and lines of cache of calls, {why}")
    text = BOUNDS.read_text(encoding="utf-8")
    bounds = read_bounds(text)
    faults = find_faults(counts, bounds)
    if not why:
        faults += [f"{it}: nothing counts it" for it in bounds if it not in counts]
    for line in find_low(counts, bounds):
        print(f"counts: lower the bound, by --record: {line}")
    faults = faults or plant_bounds(counts, text)
    for line in faults:
        print(f"counts: FAULT: {line}")
    print(f"counts: {len(counts)} counts compared with their bounds, {len(faults)} faults")
    return 1 if faults else 0


if __name__ == "__main__":
    sys.exit(main(sys.argv[1:]))
