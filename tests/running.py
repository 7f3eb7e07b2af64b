"""Runs the functions of a script whose names begin with test_, and has what several try: qpk, and a recording."""
import os
import pty
import re
import shutil
import subprocess
import time
import traceback
from concurrent.futures import ThreadPoolExecutor
from ctypes.util import find_library
from pathlib import Path

CONTROLS = re.compile(rb"[\x00-\x08\x0b-\x1f\x7f]|\xc2[\x80-\x9f]")  # in UTF-8, but for TAB and line feed
TOP = Path(__file__).resolve().parent.parent
# A recording in plain lines, and the same in the other forms of a line that qpk takes (tool/qpk.1).
PLAIN = (
    "\n\n\n> e 3f2d\n@1.5 > e 6294e7838c767f\n@<b < d\n@\xe9 > b 4 020080\n> b 8 020080\n@<e < d 84\n> b 12 0000d1\n"
    "< d 88\n> b 16 0200d1f"
)
FORMED = (
    "# e ff\r\n#>b 4 ff\n \t\r\n>e 3f2d\r\n@1.5 > e 0x6294E7:838c:767f\n \t@<b\t<d 0x\n"
    "@\xe9\u2003>\vb\u3000+4\x85020080\n"
    ">\rb 08 0X 02:00 8 0 \r\r\n@<e\t<d 84\n@ >b 12 0 0x0 00:\fd 0X1\n  <  d 88:\n>b 16 0x02 00D1 f\r"
)


def run_tests(functions, name, subject, at_once=1):
    """Runs all tests among functions, a number of them at once, prints those that failed and a last line.

    Returns the status.
    """
    tests = [test for title, test in sorted(functions.items()) if title.startswith("test_")]
    failed = 0
    with ThreadPoolExecutor(at_once) as pool:
        for fault in filter(None, pool.map(attempt, tests)):
            failed += 1
            print(fault)
    print(f"{name}: {len(tests) - failed} tests of {subject} passed, {failed} failed")
    return 1 if failed else 0


def attempt(test):
    """Runs a test, and returns why it failed, or nothing."""
    try:
        test()
        return ""
    except Exception:  # pylint: disable=broad-except # a test may fail in any way
        return f"{test.__name__}:\n{traceback.format_exc()}"


def cost_of(command, file, output, **options):
    """Returns the seconds and the KB of memory that a command took, which reads a file and writes to another. Memory counts
    from what this process has."""
    with subprocess.Popen(command, stdin=file, stdout=output, **options) as running:
        _, status, used = os.wait4(running.pid, 0)
        running.returncode = os.WEXITSTATUS(status)
    assert running.returncode == 0, command
    return used.ru_utime + used.ru_stime, used.ru_maxrss


def on_terminal(*words, **variables):
    """Runs a program whose output is a terminal, and returns its status and its output, with line feeds alone."""
    own, other = pty.openpty()
    environment = {name: it for name, it in os.environ.items() if name not in ("NO_COLOR", "TERM")}
    environment.update({"TERM": "xterm", **variables})
    pipes = {"stdin": subprocess.DEVNULL, "stdout": other, "stderr": subprocess.PIPE}
    with subprocess.Popen([*map(str, words)], env=environment, **pipes) as running:
        os.close(other)
        output = b""
        try:
            while True:
                output += os.read(own, 1 << 16)
        except OSError:  # the terminal is closed
            pass
    os.close(own)
    return running.returncode, output.replace(b"\r\n", b"\n")


def are_linear(seconds, more):
    """Whether four times the size took a linear time: at most eight times as much, where quadratic work takes sixteen."""
    return more <= 8 * seconds + 0.02


def assert_linear(work, size):
    """Asserts that the time of this process is linear in the size, or a few milliseconds.

    Each time is the least of up to six trials, since other work takes the processor, and its caches, from some.
    """
    first = second = float("inf")
    for _ in range(6):
        first, second = min(first, seconds_of(work, size)), min(second, seconds_of(work, 4 * size))
        if are_linear(first, second):
            return
    raise AssertionError(f"{size}: {first:.3f} s, {4 * size}: {second:.3f} s")


def seconds_of(work, size):
    """Returns the time that the processor took for work of a size, in this thread."""
    begin = time.thread_time()
    work(size)
    return time.thread_time() - begin


def shows_no_fault_of_a_script(said):
    """Whether what a script said has no traceback, and no control character but the ends of lines."""
    return b"Traceback" not in said and not CONTROLS.search(said)


def answers_at_once():
    """Whether ./qpk answers, and by a program of these sources."""
    ran = subprocess.run([TOP / "qpk", "--version"], capture_output=True, encoding="utf-8", check=False)
    return ran.returncode == 0 and "were changed since" not in ran.stdout


def missing_tool():
    """Returns a program that make needs to install dist/ and that is not there, or nothing."""
    return next((it for it in ("make", "cc", "objcopy") if not shutil.which(it)), "")


def can_decrypt():
    """Whether qpk-capture can read a capture here."""
    return bool(find_library("crypto") or shutil.which("tshark"))


def install(room):
    """Installs dist/ below a folder by make, and returns qpk there."""
    words = ["make", "-s", "-C", TOP / "dist", f"BUILD={room}/build", f"PREFIX={room}/usr", "install"]
    subprocess.run([*map(str, words)], check=True, stdout=subprocess.DEVNULL)
    return room / "usr" / "bin" / "qpk"
