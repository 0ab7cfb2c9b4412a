"""Runs of programs on histories: what each spent, the folder where the histories lie, and the table of it."""
import contextlib
import os
import pathlib
import subprocess
import tempfile
from typing import Iterator, NamedTuple, Optional, Sequence, Union


class Spent(NamedTuple):
    """How a run ended, and what it took: seconds of the processor, with all its threads, and the most memory
    that it held."""

    status: int
    seconds: float
    megabytes: float


Command = Sequence[Union[str, pathlib.Path]]


def spent(command: Command, history: pathlib.Path, report: Union[str, pathlib.Path] = os.devnull) -> Spent:
    """Of a command with a history on standard input, whose standard output a file takes."""
    with open(history, "rb") as given, open(report, "wb") as taken:
        child = subprocess.Popen(command, stdin=given, stdout=taken)
        try:
            _, status, usage = os.wait4(child.pid, 0)
        except BaseException:
            child.kill()
            raise
    child.returncode = os.waitstatus_to_exitcode(status)
    return Spent(child.returncode, usage.ru_utime + usage.ru_stime, usage.ru_maxrss / 1024)


@contextlib.contextmanager
def folder_of(kept: Optional[pathlib.Path]) -> Iterator[pathlib.Path]:
    """One that is named, or one for the time being."""
    if kept:
        kept.mkdir(parents=True, exist_ok=True)
        yield kept
        return
    with tempfile.TemporaryDirectory() as name:
        yield pathlib.Path(name)


def print_line(fields: Sequence[str]) -> None:
    """Prints a line of a Markdown table at once."""
    print("| " + " | ".join(fields) + " |", flush=True)


def print_heads(heads: Sequence[str]) -> None:
    print_line(heads)
    print("|" + "---|" * len(heads))
