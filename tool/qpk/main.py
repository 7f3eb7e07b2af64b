"""How the scripts end, and how they show a text that others wrote. qpk-capture and qpk-report read it."""

import os
import signal
import sys
from typing import BinaryIO, Callable, List, Optional, Tuple

REFUSED = 1  # the status of words or an input that have no answer, and of an output that can't be written


class Refusal(Exception):
    """There is no answer, for this reason."""


# What an input may cause. Any other exception is a fault of the scripts.
FAULTS_OF_INPUT = (Refusal, MemoryError, RecursionError, OSError, ValueError)


def printable(text: str) -> str:
    """Returns a text as a terminal may show it: a character that is not printable is a backslash and its number."""
    return "".join(it if it.isprintable() else it.encode("unicode_escape").decode() for it in text)


def complain(line: str) -> None:
    """Writes a line on standard error, if that is open."""
    if sys.stderr is not None:
        print(printable(line), file=sys.stderr)


def reason_of(error: BaseException) -> str:
    """Returns what is wrong, and what to do."""
    if isinstance(error, MemoryError):
        return "refused: memory: read a part of the input, or use a machine that has more"
    if isinstance(error, RecursionError):
        return "the input is nested too deeply: name a trace, a capture or a recording"
    if isinstance(error, OSError):
        place = f"{error.filename}: " if error.filename else ""
        return f"{place}{error.strerror or error}: name another file, or make room there"
    if isinstance(error, ValueError):
        return f"a value of the input can't be read: {error}: name a trace, a capture or a recording"
    return str(error)


def split_words(words: List[str]) -> Tuple[List[str], List[str]]:
    """Returns the words before the word --, and those after it, of which none is an option."""
    at = words.index("--") if "--" in words else len(words)
    return words[:at], words[at + 1 :]


def run(name: str, answer: Callable[[], int]) -> int:
    """Answers, and returns the status. Ends by the signal if the reader of the output has ended, or on an interrupt.

    No input has a traceback: what an input may cause is a line on standard error.
    """
    reason = ""
    end: Optional[signal.Signals] = None
    try:
        if sys.stdout is None:
            raise Refusal("refused: output: standard output is closed")
        status = answer()
        sys.stdout.flush()
        return status
    except BrokenPipeError:
        end = signal.SIGPIPE
    except KeyboardInterrupt:
        reason, end = "interrupted", signal.SIGINT
    except FAULTS_OF_INPUT as error:
        reason = reason_of(error)
    # Here the memory of what failed is free again.
    drop_output()
    if reason:
        complain(f"{name}: {reason}")
    if end is not None:
        signal.signal(end, signal.SIG_DFL)
        os.kill(os.getpid(), end)
    return REFUSED


def drop_output() -> None:
    """Has what is left of the output go nowhere, so that the end of Python writes nothing."""
    if sys.stdout is not None:
        os.dup2(os.open(os.devnull, os.O_WRONLY), sys.stdout.fileno())


def open_input() -> BinaryIO:
    """Returns standard input, to read its bytes."""
    if sys.stdin is None:
        raise Refusal("refused: input: standard input is closed")
    return sys.stdin.buffer


def standard_input() -> bytes:
    """Returns all bytes of standard input."""
    return open_input().read()


def open_file(name: str) -> BinaryIO:
    """Opens a file to read its bytes."""
    try:
        return open(name, "rb")
    except (OSError, ValueError):  # the latter is for a name that has a byte 0
        raise Refusal(f"{name} is not a file that can be read") from None
