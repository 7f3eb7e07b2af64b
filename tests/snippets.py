#!/usr/bin/env python3
"""Runs the commands and the snippets of README.md, docs/USING.md and docs/FAQ.md.

    tests/snippets.py

A command of RUN is run as the document has it, over a copy of the repository, and must print what its comment says after
"prints". A snippet is compiled and run in its frame of tests/snippets/, or its lines are compared with a source that
another test runs. As root all run in a system of their own, by tests/confined.py: not as root, without the kit, this
library and a network. The exit status is 1 if one fails, or if a block is neither run nor listed here. Needs a C and a C++
compiler, make, pkg-config and cargo, and a dist/ of the sources as they are. If one is missing, nothing is run, and the
last line says so. The command for Go needs go, and that for Python the package python3-venv of Debian. Without it the
command is left out, and the last line says so too. No command uses the network.
"""
import os
import re
import shutil
import signal
import subprocess
import sys
import tempfile
from importlib.machinery import PathFinder
from pathlib import Path

import confined

TOP = Path(__file__).resolve().parent.parent
DOCUMENTS = ["README.md", "docs/USING.md", "docs/FAQ.md"]
TOOLS = ["cc", "c++", "make", "pkg-config", "cargo"]
# The most seconds by the clock that one command may take, on a machine that proves beside it.
SECONDS = 300
# Commands that are run, by their first word, and the folder of the room where each is run.
RUN = {
    "printf": "h3_qpack",
    "./qpk": "h3_qpack",
    "make": "h3_qpack",
    "cmp": "h3_qpack",
    "sha256sum": "h3_qpack",
    "cc": "",
    "cargo": "app",
    "go": "app-in-go",
    "python3": "h3_qpack",
}
# Commands that are not run here: why, and where each is run instead.
NOT_RUN = {
    "./test": "runs this script, and is the first stage of .ci/run",
    "examples/http3-server/serve": "opens a browser; .ci/browsers builds this server, and runs it with browsers",
}
# Parts of commands that need root, and what takes their place: the library is installed in a folder of the room.
REPLACED = [(" && ldconfig", ""), ("PREFIX=/usr/local", "PREFIX=$ROOM/usr")]
# Snippets by their first line. Each has a frame of tests/snippets/, or the source that has its lines.
SNIPPETS = {
    "h3_qpack_encoder_settings theirs;": "tests/snippets/main.c",
    "uint64_t id;": "tests/snippets/server.c",
    "use h3_qpack::connection::{ConnectionDecoder, ConnectionEncoder, DecoderSettings, EncoderSettings, Reading};": (
        "tests/snippets/main.rs"
    ),
    "use qpack_ends::{": "crates/qpack_example/src/main.rt",
}
# A block of code: between fences, which name its language, or indented by four after an empty line.
BLOCK = re.compile(r"^```(\w*)\n((?:.*\n)*?)```$|(?<=\n\n)((?:    .*\n)+)", re.M)
# The language of a block that is a picture.
PICTURE = "text"
# The line of a frame in whose place a snippet stands.
FRAME = re.compile(r"^ *// SNIPPET$", re.M)
COMMENT = re.compile(r"\s+(?:# |// |/\* )(.*?)(?: \*/)?$")
# What a command needs beside TOOLS, by its first word: programs, and modules of Python.
NEEDS = {"go": (["go"], []), "python3": ([], ["ensurepip"])}
# Where Debian installs modules of Python, which another python3 does not look into.
DEBIAN = "/usr/lib/python3/dist-packages"
MODULE = "module app\n\ngo 1.19\n"
PROGRAM = 'package main\n\nimport "h3qpack"\n\nfunc main() {\n\tprintln(h3qpack.Version())\n}\n'
CRATE = '[package]\nname = "app"\nversion = "0.1.0"\nedition = "2021"\n\n[workspace]\n'


class Block:
    """A block of code: its place, its language, or none for commands, and its lines."""

    def __init__(self, document, text, found):
        self.place = f"{document}:{text.count(chr(10), 0, found.start()) + 1}"
        self.language = found[1] or ""
        self.lines = [it.strip() for it in (found[2] or found[3]).splitlines() if it.strip()]

    def first(self):
        """Returns the first line without its comment, by which the block is listed."""
        return COMMENT.sub("", self.lines[0])

    def commands(self):
        """Returns each line as a command and its comment."""
        found = [(it, COMMENT.search(it)) for it in self.lines]
        return [(COMMENT.sub("", it), comment[1] if comment else "") for it, comment in found]


class Room:
    """A folder with a copy of the repository, the snippets in their frames, and an empty crate beside it."""

    def __init__(self, folder):
        self.folder = folder
        ignored = shutil.ignore_patterns(".git", "out", "build", "target")
        shutil.copytree(TOP, folder / "h3_qpack", symlinks=True, ignore=ignored)
        (folder / "app" / "src").mkdir(parents=True)
        (folder / "app" / "Cargo.toml").write_text(CRATE)
        (folder / "app-in-go").mkdir()
        (folder / "app-in-go" / "go.mod").write_text(MODULE)
        (folder / "app-in-go" / "main.go").write_text(PROGRAM)
        library = folder / "usr" / "lib"
        self.why_not_confined = confined.why_not(folder)
        self.environment = {
            **(os.environ if self.why_not_confined else confined.environment_of(folder)),
            "ROOM": str(folder),
            "PKG_CONFIG_PATH": str(library / "pkgconfig"),
            "LD_LIBRARY_PATH": str(library),
            "CARGO_NET_OFFLINE": "true",
            "CARGO_TARGET_DIR": str(folder / "target"),
            "GOPROXY": "off",
            "GOTOOLCHAIN": "local",
            "GOCACHE": str(folder / "go-cache"),
            "PIP_NO_INDEX": "1",
        }
        if not self.why_not_confined:
            confined.hand_over(folder)

    def words_of(self, command, folder):
        """Returns the words of a call that runs a command of the shell in a folder of the room."""
        if self.why_not_confined:
            return ["sh", "-c", command]
        return confined.words_of(self.folder, self.folder / folder, command)

    def run(self, command, folder):
        """Runs a command of the shell in a folder of the room. Returns what it printed, and why it failed, if it did."""
        pipes = {"stdin": subprocess.DEVNULL, "stdout": subprocess.PIPE, "stderr": subprocess.PIPE}
        words = {"cwd": self.folder / folder, "env": self.environment, "start_new_session": True, "text": True}
        with subprocess.Popen(self.words_of(command, folder), **words, **pipes) as running:
            try:
                printed, faults = running.communicate(timeout=SECONDS)
            except subprocess.TimeoutExpired:
                os.killpg(running.pid, signal.SIGKILL)
                return "", f"no end after {SECONDS} seconds"
        said = f"status {running.returncode}\n{printed}{faults}".rstrip()
        return printed, said if running.returncode else ""

    def run_command(self, command, comment):
        """Runs a command of a document. Returns why it failed, if it did."""
        folder = RUN[command.split()[0]]
        for old, new in REPLACED:
            command = command.replace(old, new)
        printed, fault = self.run(command, folder)
        foretold = re.match(r"prints ([^\s;,]+)", comment)
        if not fault and foretold and printed.strip() != foretold[1]:
            return f"it printed: {printed}"
        return fault

    def put(self, block, frame):
        """Writes a snippet in its frame to where the commands of the documents expect a program."""
        text = (TOP / frame).read_text(encoding="utf-8")
        parts = FRAME.split(text)
        if len(parts) != 2:
            return f"{frame} has not one line // SNIPPET"
        to = self.folder / "app" / "src" if frame.endswith(".rs") else self.folder
        (to / Path(frame).name).write_text("\n".join(block.lines).join(parts), encoding="utf-8")
        return ""

    def run_program(self, frame):
        """Compiles a program, one in C as C++ too, and runs it. Returns why that failed, if it did."""
        if frame.endswith(".rs"):
            return self.run("cargo run -q --offline", "app")[1]
        strict, flags = "-Wall -Wextra -Werror", "$(pkg-config --cflags --libs h3_qpack)"
        name = Path(frame).name
        in_c = f"cc {strict} {name} {flags} -o program && ./program"
        in_cpp = f"cp {name} {name}c && c++ {strict} {name}c {flags} -o program && ./program"
        return self.run(f"{in_c} && {in_cpp}", "")[1]


def find_package(name):
    """Returns what Python finds of a package that is installed, or None."""
    return PathFinder.find_spec(name, [*sys.path, DEBIAN])


def find_lacking(command):
    """Returns what a command needs and is not installed."""
    programs, modules = NEEDS.get(command.split()[0], ([], []))
    searched = confined.PATH if os.geteuid() == 0 else None
    return [it for it in programs if not shutil.which(it, path=searched)] + [it for it in modules if not find_package(it)]


def read_blocks():
    """Returns the blocks of all documents."""
    texts = [(name, (TOP / name).read_text(encoding="utf-8")) for name in DOCUMENTS]
    return [Block(name, text, found) for name, text in texts for found in BLOCK.finditer(text) if found[1] != PICTURE]


def is_run(command):
    """Whether a command is run here."""
    return command not in NOT_RUN and command.split()[0] in RUN


def find_unlisted(blocks):
    """Yields each command and snippet that is not listed, and each entry of the lists that no document has."""
    commands = {command: it for it in blocks if not it.language for command, _ in it.commands()}
    snippets = {it.first(): it for it in blocks if it.language}
    for command, block in commands.items():
        if command not in NOT_RUN and not is_run(command):
            yield f"{block.place}: neither in RUN nor in NOT_RUN of tests/snippets.py: {command}"
    for first, block in snippets.items():
        if first not in SNIPPETS:
            yield f"{block.place}: this block is not in SNIPPETS of tests/snippets.py"
    for it in [*(set(NOT_RUN) - set(commands)), *(set(SNIPPETS) - set(snippets))]:
        yield f"tests/snippets.py: no document has this: {it}"


def compare(block, source):
    """Yields each line of a snippet that the source does not have, in their order between empty lines."""
    lines = [it.strip() for it in (TOP / source).read_text(encoding="utf-8").splitlines()]
    for line, _ in block.commands():
        if line not in lines:
            yield f"{block.place}: {source} has no line: {line}"


def why_not():
    """Returns why nothing can be run here, or nothing."""
    missing = [it for it in TOOLS if not shutil.which(it)]
    if missing:
        return f"{missing[0]} is not installed"
    fits = subprocess.run([TOP / "dist" / "fits", "h3_qpack_c"]).returncode == 0
    return "" if fits else "dist/ is of other sources"


def run_all(blocks, room):
    """Runs the commands and the programs, and yields each fault with its place."""
    frames = [(it, SNIPPETS[it.first()]) for it in blocks if SNIPPETS.get(it.first(), "").startswith("tests/")]
    for block, frame in frames:
        fault = room.put(block, frame)
        if fault:
            yield f"{block.place}: {fault}"
    for block in blocks:
        for command, comment in [] if block.language else block.commands():
            fault = room.run_command(command, comment) if is_run(command) and not find_lacking(command) else ""
            if fault:
                yield f"{block.place}: {command}: {fault}"
    for block, frame in frames:
        fault = room.run_program(frame)
        if fault:
            yield f"{block.place}: in {frame}: {fault}"


def find_not_run(blocks):
    """Returns the commands that are not run here, each with what it needs and is not installed."""
    commands = [command for it in blocks if not it.language for command, _ in it.commands()]
    found = {it: find_lacking(it) for it in commands if is_run(it)}
    return {command: lacking for command, lacking in found.items() if lacking}


def say_what_is_not_shown(left_out, why_not_confined, not_run):
    """Prints a line for each thing that was not run, or not in a system of its own."""
    if left_out:
        print(f"not shown: the commands and snippets of the documents, as {left_out}")
        return
    if why_not_confined:
        print(f"not shown: that the commands of the documents run in a system of their own, {why_not_confined}")
    for lacking in not_run.values():
        print(f"not shown: a command of the documents, without {' and '.join(lacking)}")


def main():
    blocks = read_blocks()
    faults = list(find_unlisted(blocks))
    for it in blocks:
        source = SNIPPETS.get(it.first(), "tests/") if it.language else "tests/"
        faults += [] if source.startswith("tests/") else compare(it, source)
    left_out, why_not_confined = why_not(), ""
    if not left_out:
        with tempfile.TemporaryDirectory(prefix="h3-qpack-snippets-") as folder:
            room = Room(Path(folder) / "room")
            why_not_confined = room.why_not_confined
            faults += run_all(blocks, room)
    for it in faults:
        print(it)
    not_run = {} if left_out else find_not_run(blocks)
    say_what_is_not_shown(left_out, why_not_confined, not_run)
    said = f", nothing was run: {left_out}" if left_out else f", {len(NOT_RUN)} commands are run elsewhere"
    said += "".join(f"; not run, without {' and '.join(lacking)}: {command}" for command, lacking in not_run.items())
    print(f"snippets: {len(faults)} faults in {len(blocks)} blocks{said}")
    return 1 if faults else 0


if __name__ == "__main__":
    sys.exit(main())
