"""What the tests of pages share: each headless browser that is there, checks by their names, and how these are counted."""
import shutil
from contextlib import contextmanager

import bidi
import devtools
import processes
from nghttp3 import Failure

BROWSERS = (devtools.Browser, bidi.Browser)


class NotShown(Exception):
    """A check can't be made here, for this reason."""


@contextmanager
def opened(kind):
    """Starts a browser of a kind, and closes it at the end. Gives the browser, and a folder for what it reads."""
    with processes.new_folder() as room:
        browser = kind(room)
        try:
            yield browser, room
        finally:
            browser.close()


def try_checks(script, about, checks):
    """Makes checks, which are functions by their names, and returns how many passed and failed."""
    passed = failed = 0
    for name, check in checks.items():
        try:
            print(f"tests/browsers/{script}: {about}, {name}: {check()}", flush=True)
            passed += 1
        except NotShown as why:
            print(f"not shown: tests/browsers/{script}: {about}, {name}, {why}", flush=True)
        except Failure as why:
            print(f"tests/browsers/{script}: FAILED: {about}, {name}: {why}", flush=True)
            failed += 1
    return passed, failed


def in_each(subject, check):
    """Calls a function on each browser that is there, and a folder. It returns how many passed and failed. Prints the sums, and
    returns the status. Of a browser that is not there it says what is not shown."""
    counts = [(0, 0)]
    for kind in BROWSERS:
        if not shutil.which(kind.program):
            print(f"not shown: {subject} in {kind.name}, without {kind.program}")
            continue
        with opened(kind) as (browser, room):
            counts.append(check(browser, room))
    passed, failed = map(sum, zip(*counts))
    print(f"{passed} passed, {failed} failed")
    return failed > 0
