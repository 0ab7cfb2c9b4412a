"""What the judges of programs' answers share: how a program ended, what is wrong about a report, and the
words with which a judge is called. A judge is a module with a function that gives a right answer and one that
says what is wrong about an answer."""
import argparse
import json
import subprocess
import sys
from typing import Any, Callable, Dict, List, NamedTuple, NoReturn, Optional, Sequence

import reference

Row = Dict[str, Any]  # a line of a report


class Ended(NamedTuple):
    """How a program ended."""

    status: int
    output: bytes
    error: bytes


def run(words: Sequence[str], history: bytes, seconds: Optional[float] = None) -> Ended:
    """Runs a program on a history."""
    ran = subprocess.run(words, input=history, capture_output=True, timeout=seconds, check=False)
    return Ended(ran.returncode, ran.stdout, ran.stderr)


class Wrong(Exception):
    """Something in an answer that isn't right."""


def wrong(*words: object) -> NoReturn:
    raise Wrong(" ".join(map(str, words)))


def compare(what: str, have: Any, want: Any) -> None:
    if not reference.same(have, want):
        wrong(f"{what} is {have}, and not {want}")


def rows_in(output: bytes) -> List[Row]:
    """The lines of a report, each of which is compact and has its keys in order."""
    lines = output.split(b"\n")
    if lines.pop():
        wrong("the report doesn't end in a line feed")
    rows = []
    for line in lines:
        try:
            row = json.loads(line)
        except ValueError:
            wrong("not JSON:", line)
        if not isinstance(row, dict) or reference.report_text([row]) != line + b"\n":
            wrong("not compact, not by key, or no object:", line)
        rows.append(row)
    return rows


def refused(why: reference.Refused, options: reference.Options) -> Ended:
    """How a program ends on a history that is refused."""
    return Ended(2, b"", why.text(options).encode() + b"\n")


Answer = Callable[[bytes, Sequence[str]], Ended]  # to a history, with these options of the program
Complaint = Callable[[bytes, Ended, Sequence[str]], Optional[str]]  # None if the answer is right


def words_of(about: str) -> argparse.Namespace:
    top = argparse.ArgumentParser(description=about, formatter_class=argparse.RawDescriptionHelpFormatter)
    commands = top.add_subparsers(dest="command", required=True)
    commands.add_parser("answer").add_argument("history")
    judge = commands.add_parser("judge")
    judge.add_argument("history")
    judge.add_argument("status", type=int)
    judge.add_argument("report")
    known, options = top.parse_known_args()
    known.options = options
    return known


def main(about: str, answer: Answer, complaint: Complaint) -> int:
    """A judge as a command: what it isn't told itself are options of the program."""
    arguments = words_of(about)
    history = reference.read_file(arguments.history)
    if arguments.command == "answer":
        ended = answer(history, arguments.options)
        sys.stdout.buffer.write(ended.output)
        sys.stderr.buffer.write(ended.error)
        return ended.status
    report = reference.read_file(arguments.report)
    why = complaint(history, Ended(arguments.status, report, b""), arguments.options)
    print(why or "right")
    return 1 if why else 0
