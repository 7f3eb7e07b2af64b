#!/usr/bin/env python3
"""What `./test` asks the program of tests for on standard input, and how its answers are compared.

A question names a crate, and has cases in the format of `qpack_testing::cases`: the program prints the answer of each call.
The answer that is expected is a text, a pattern, or None where any will do.
"""
import re
import subprocess
import sys
from dataclasses import dataclass, field, replace
from pathlib import Path

REFUSALS = (b"qpk: refused: memory\n", b"qpk: refused: output\n")
DATA = Path(__file__).resolve().parent.parent / "crates" / "qpack_tests" / "data"


@dataclass
class Question:
    """Cases for a crate, of a part that is counted."""

    part: str
    name: str
    crate: str
    lines: list = field(default_factory=list)
    calls: list = field(default_factory=list)
    cases: int = 0

    def begin(self, subject, times=1):
        """Begins a case. With `pieces` its calls are answered several times."""
        self.lines += [f"# {self.cases}", f"= {subject}"]
        self.cases += 1
        self.begun, self.times = len(self.calls), times

    def ask(self, call, expected=None):
        """Adds a call, and what is expected."""
        self.lines.append(call)
        self.calls.append((call, expected))

    def end(self):
        """Ends a case: what is expected of its calls is expected as often as they are made."""
        self.calls += self.calls[self.begun :] * (self.times - 1)

    def text(self):
        """Returns what the program is given."""
        return "\n".join([self.crate, *self.lines, ""])

    def compare_refused(self, answers):
        """Does what `compare` does where one allocation was refused: one answer may tell that."""
        for number, ((call, expected), answer) in enumerate(zip(self.calls, answers)):
            if not is_expected(expected, answer) and tells_refusal(answer, expected):
                calls = [*self.calls[:number], (call, None), *self.calls[number + 1 :]]
                return replace(self, calls=calls).compare(answers)
        return self.compare(answers)

    def compare(self, answers):
        """Returns why the answers are not the expected ones, or nothing."""
        if len(answers) != len(self.calls):
            return f"{self.part}, {self.name}: {len(self.calls)} answers are expected, and there are {len(answers)}"
        for number, ((call, expected), answer) in enumerate(zip(self.calls, answers)):
            if not is_expected(expected, answer):
                wanted = expected if isinstance(expected, str) else expected.pattern
                return f"{self.part}, {self.name}, call {number}, {cut(call)}: it answers {cut(answer)}, and not {cut(wanted)}"
        return ""


def is_expected(expected, answer):
    """Whether an answer is the expected one."""
    if expected is None or isinstance(expected, str):
        return expected in (None, answer)
    return expected.fullmatch(answer) is not None


def tells_refusal(answer, expected):
    """Whether a run of qpk tells that it was refused memory: it prints nothing, or what is foretold before a refusal."""
    found = re.fullmatch(r"(\d+) ([0-9a-f]+|nothing) ([0-9a-f]+|nothing|\d+)", answer)
    if not found or not isinstance(expected, str):
        return bool(found)
    status, faults, output = found.groups()
    if status == "0" or not any(it.hex().startswith(faults.replace("nothing", "")) for it in REFUSALS):
        return b"refused out of memory".hex() in output
    return output == "nothing" or expected[0] != "0" and output == expected.split(" ")[2]


def cut(text):
    """Returns a text, and of a long one its beginning."""
    return f"`{text[:200]}..`" if len(text) > 200 else f"`{text}`"


def read_questions(share=1):
    """Returns all questions. Of a long random one there is one of so many cases."""
    import foretold  # pylint: disable=import-outside-toplevel # each of these imports this module
    import recorded  # pylint: disable=import-outside-toplevel
    import short_lists  # pylint: disable=import-outside-toplevel
    import scripts  # pylint: disable=import-outside-toplevel
    import tables  # pylint: disable=import-outside-toplevel

    return [
        *foretold.read_questions(),
        *(it for module in (recorded, short_lists, tables, scripts) for it in module.read_questions(share)),
    ]


def answers_to(question, said):
    """Returns the answers to a question, of all that rt try printed: a line each, and then a line that counts the calls."""
    found = re.search(rf"^== {re.escape(question.name)}\n", said, re.M)
    if not found:
        return []
    answers = said[found.end() - 1 :].partition("\n== ")[0][1:]
    counted = re.search(r"^asked: .* calls$", answers, re.M)
    return answers[: counted.start()].split("\n")[:-1] if counted else []


def compare_parts(questions, said):
    """Returns for each part how many answers were compared, and why some are not the expected ones."""
    parts = {}
    for question in questions:
        calls, faults = parts.get(question.part, (0, []))
        fault = question.compare(answers_to(question, said))
        parts[question.part] = calls + len(question.calls), faults + [fault] if fault else faults
    return parts


def without_answers(said):
    """Returns what rt try printed, without the answers."""
    return re.sub(r"^== \w+\n(?:(?!== \w+$).*\n)*?asked: .* calls$", "", said, flags=re.M)


def to_field(name, value):
    """Returns a field of bytes as a case has it: in hexadecimal, so that no character of it means anything else."""
    return f" | {to_text(name)} = {to_text(value)}"


def to_text(data):
    """Returns bytes as the words of a case have them."""
    return f"0x{data.hex()}" if data else '""'


def shown_field(name, value, never=False):
    """Returns a field as an answer shows it."""
    return f" | {'never ' if never else ''}{shown_text(name)} = {shown_text(value)}"


def shown_text(data):
    """Returns a name or a value as an answer shows it."""
    if not data:
        return '""'
    return data.decode("ascii") if all(0x20 <= it <= 0x7E for it in data) else f"0x{data.hex()}"


def shown_bytes(data):
    """Returns bytes as an answer shows them."""
    return data.hex() or "nothing"


def run(program):
    """Asks a program all questions, and tells what was compared. Returns the status."""
    parts = {}
    for question in read_questions():
        asked = subprocess.run([program], input=question.text().encode(), stdout=subprocess.PIPE, check=False)
        fault = question.compare(answers_to(question, f"== {question.name}\n{asked.stdout.decode()}"))
        print(fault, end="\n" if fault else "")
        parts.setdefault(question.part, []).append(bool(fault))
    failed = sum(map(any, parts.values()))
    print(f"{len(parts) - failed} passed, {failed} failed")
    return 1 if failed else 0


def main(words):
    """asked.py --run PROGRAM asks a built program of tests all questions. asked.py --write FOLDER CRATE writes each question
    for a crate to a file. asked.py --refused FILE, with the answers on standard input, fails unless they are the expected
    ones but for one refusal of memory."""
    if words[0] == "--run":
        return run(words[1])
    if words[0] == "--write":
        for question in read_questions():
            if question.crate == words[2]:
                (Path(words[1]) / question.name).write_text(question.text(), encoding="ascii")
        return 0
    name = Path(words[1]).name
    question = next(it for it in read_questions() if it.name == name)
    fault = question.compare_refused(answers_to(question, f"== {name}\n{sys.stdin.read()}"))
    print(fault, end="")
    return 1 if fault else 0


if __name__ == "__main__":
    sys.exit(main(sys.argv[1:]))
