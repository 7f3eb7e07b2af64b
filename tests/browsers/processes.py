"""Processes that tests start, and folders in which these write: both end, also if the processes have children."""
import os
import select
import shutil
import signal
import subprocess
import tempfile
import time
from contextlib import contextmanager, suppress

from nghttp3 import Failure

SECONDS = 20


def stop(process):
    """Ends a process that this one started, and then its group, if it leads one. Returns its status."""
    process.terminate()
    try:
        status = process.wait(SECONDS)
    except subprocess.TimeoutExpired:
        process.kill()
        status = process.wait()
    with suppress(ProcessLookupError):  # it led no group, or all of that ended
        os.killpg(process.pid, signal.SIGKILL)
    return status


@contextmanager
def new_folder():
    """Makes a folder, and removes it at the end. A process that was killed may write there a moment longer."""
    path = tempfile.mkdtemp(prefix="h3-qpack-browser-")
    try:
        yield path
    finally:
        until = time.time() + SECONDS
        shutil.rmtree(path, ignore_errors=True)
        while os.path.exists(path) and time.time() < until:
            time.sleep(0.1)
            shutil.rmtree(path, ignore_errors=True)


def check(_):
    """A process is ended with a child that would write on, and its folder is removed. One without a group is ended too."""
    child = 'for i in $(seq 20000); do mkdir -p "$0/Default" && : >"$0/Default/$i"; done'  # some 20 seconds
    with new_folder() as path:
        words = ["sh", "-c", f"sh -c '{child}' \"$0\" & exec sleep 600", path]
        with subprocess.Popen(words, stdout=subprocess.PIPE, stderr=subprocess.DEVNULL, start_new_session=True) as running:
            until = time.time() + SECONDS
            while not os.path.exists(f"{path}/Default") and time.time() < until:
                time.sleep(0.01)
            status = stop(running)
            is_ended = select.select([running.stdout], [], [], 5)[0] != []  # as no process has the other end of the pipe
    if status != -signal.SIGTERM or not is_ended or os.path.exists(path):
        raise Failure(
            f"a process ended with {status}; {is_ended}: its child ended; {not os.path.exists(path)}: the folder is removed"
        )
    with subprocess.Popen(["sleep", "600"]) as running:
        status = stop(running)
    if status != -signal.SIGTERM:
        raise Failure(f"a process without a group ended with {status}")
    return "two are ended, and a folder is removed"
