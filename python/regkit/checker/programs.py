"""Asks the checkers: a program, or for a small history the library, where it is installed.

`regcheck` decides whatever it accepts. If it refuses a history for a repeated value, or for a cas or another
operation that it doesn't take, `regsearch` takes it, if it is there. `reglevel` says which weaker levels a
history kept."""
import io
import os
import pathlib
import shutil
import subprocess
import sys
from itertools import islice
from types import TracebackType
from typing import TYPE_CHECKING, Any, BinaryIO, NamedTuple, Optional, Sequence, Union

from regkit.base.statuses import ExitStatus
from regkit.checker.refusals import BAD_OP, NO_VALUE, REPEATED, read_refusal
from regkit.history.lines import NotJson, json_of

if TYPE_CHECKING:
    from regkit.checker.library import Library

LIBRARY_BYTES = 1_048_576  # the program has several workers: it is as quick with a longer history
NOT_FOUND = "regcheck was not found: put it on PATH, or set REGCHECK to its path"
NO_LEVELS = "reglevel was not found: put it beside regcheck or on PATH, or set REGLEVEL to its path"
CHECK, SEARCH, LEVEL = "regcheck", "regsearch", "reglevel"
VARIABLES = {CHECK: "REGCHECK", SEARCH: "REGSEARCH", LEVEL: "REGLEVEL"}  # with the paths of the programs
SEARCHED = frozenset({"cas", "delete", "swap"})  # the words of operations that only regsearch takes
TAKEN_BY_SEARCH = ("regsearch takes it, with repeated values, cas, deletes and swaps: put it beside regcheck "
                   "or on PATH, or set REGSEARCH to its path")


class NoChecker(Exception):
    """A program wasn't found, or couldn't be started."""

    def __init__(self, words: str = NOT_FOUND) -> None:
        super().__init__(words)


class Answer(NamedTuple):
    """What one run of a program gave."""

    status: int  # one of ExitStatus, or below 0 the signal that ended it
    report: bytes  # standard output; empty unless it decided
    refusal: str  # standard error, without its line feed
    program: str = CHECK

    @property
    def decided(self) -> bool:
        """Whether there is a report."""
        return self.status in (ExitStatus.ATOMIC, ExitStatus.NOT_ATOMIC, ExitStatus.UNKNOWN)

    @property
    def by_search(self) -> bool:
        return self.program == SEARCH


def beside(program: str = CHECK) -> list[pathlib.Path]:
    """Where the program may be: beside the command, in bin/ of the repository, or where pip puts commands."""
    places = []
    started = pathlib.Path(sys.argv[0])
    if started.is_file():
        places += [started.parent / program, started.resolve().parent / program]
    package = pathlib.Path(__file__).resolve().parents[1]
    if (package.parent / "pyproject.toml").is_file():
        places.append(package.parent.parent / "bin" / program)
    if package.parent.name in ("site-packages", "dist-packages"):
        places.append(package.parents[3] / "bin" / program)
    return places


def find_program(program: str) -> Optional[str]:
    """The path in its variable, or the program beside this one, or the one on PATH, if there is any."""
    named = os.environ.get(VARIABLES[program])
    if named:
        return named
    for path in beside(program):
        if os.access(path, os.X_OK) and path.is_file():
            return str(path)
    return shutil.which(program)


def find_checker() -> str:
    """The path of `regcheck`. Raises NoChecker."""
    found = find_program(CHECK)
    if found is None:
        raise NoChecker
    return found


def held(history: bytes) -> BinaryIO:
    """The bytes as a file of no name, which another process reads while this one is at work."""
    if hasattr(os, "memfd_create"):
        stream: Any = open(os.memfd_create("history"), "w+b", buffering=0)
    else:
        from tempfile import TemporaryFile  # only other systems than Linux wait for this

        stream = TemporaryFile(buffering=0)
    left = memoryview(history)
    while left:
        left = left[stream.write(left):]
    stream.seek(0)
    return stream  # type: ignore[no-any-return]


class RunningProgram:
    """A program at work on a history. Whoever started it may go on until it asks for the answer."""

    def __init__(self, history: bytes, options: Sequence[str] = (), program: Optional[str] = None,
                 name: str = CHECK) -> None:
        """Raises NoChecker if the program can't be started."""
        path, self.name = program or find_checker(), name
        with held(history) as stream:
            try:
                self.process = subprocess.Popen([path, *options], stdin=stream, stdout=subprocess.PIPE,
                                                stderr=subprocess.PIPE)
            except OSError as error:
                words = f"{path} could not be started: {error.strerror}. Is {VARIABLES[name]} right?"
                raise NoChecker(words) from error

    def answer(self) -> Answer:
        report, words = self.process.communicate()
        told = words.decode("utf-8", "replace").rstrip("\n")
        return Answer(self.process.returncode, report, told, self.name)

    def __enter__(self) -> "RunningProgram":
        return self

    def __exit__(self, kind: Optional[type[BaseException]], error: Optional[BaseException],
                 trace: Optional[TracebackType]) -> None:
        """Ends the program if nobody waited for it."""
        if self.process.poll() is None:
            self.process.kill()
            self.process.communicate()


class ReadyAnswer:
    """The answer of the library, which is there at once, in the place of a running program."""

    def __init__(self, answer: Answer) -> None:
        self._answer = answer

    def answer(self) -> Answer:
        return self._answer

    def __enter__(self) -> "ReadyAnswer":
        return self

    def __exit__(self, *_: object) -> None:
        pass


def run_checker(history: bytes, options: Sequence[str] = (), program: Optional[str] = None) -> Answer:
    """Runs the checker on a history. Raises NoChecker if it can't be started."""
    with RunningProgram(history, options, program) as run:
        return run.answer()


def run_search(history: bytes, options: Sequence[str], program: str) -> Answer:
    """Runs `regsearch`, at a path, on a history. Raises NoChecker if it can't be started."""
    with RunningProgram(history, options, program, SEARCH) as run:
        return run.answer()


def library_for(history: bytes, program: str) -> Optional["Library"]:
    """The library in the place of a program, if it is there and the history is small: their answers are the
    same. Raises NoChecker if REGCHECK_LIBRARY names another file."""
    if len(history) > LIBRARY_BYTES:
        return None
    from regkit.checker.library import NoLibrary, find_library  # a long history doesn't wait for this

    try:
        return find_library(program)
    except NoLibrary as error:
        raise NoChecker(str(error)) from error


def begin(history: bytes, options: Sequence[str] = ()) -> Union[RunningProgram, ReadyAnswer]:
    """Begins to judge a history: by the library if the history is small and there are no options, else by the
    program."""
    library = None if options else library_for(history, CHECK)
    if library is None:
        return RunningProgram(history, options)
    told = library.check(history)
    return ReadyAnswer(Answer(told.status, told.report, told.refusal))


def judge(history: bytes, options: Sequence[str] = ()) -> Answer:
    """The answer to a history, when it is there."""
    with begin(history, options) as run:
        return run.answer()


def judge_levels(history: bytes, level: Optional[str] = None, *, stale: bool = False,
                 orders: bool = False) -> Answer:
    """What `reglevel` says of a history: by the library if the history is small, else by the program. A level
    is required, or `atomic` if none is named. Raises NoChecker if neither is there, or can't be started."""
    library = library_for(history, LEVEL)
    if library is not None:
        told = library.levels(history, level or "atomic", stale=stale, orders=orders)
        return Answer(told.status, told.report, told.refusal, LEVEL)
    path = find_program(LEVEL)
    if path is None:
        raise NoChecker(NO_LEVELS)
    words = [*(["--stale"] if stale else []), *(["--orders"] if orders else []),
             *(["--require", level] if level else [])]
    with RunningProgram(history, words, path, LEVEL) as run:
        return run.answer()


def is_for_search(history: bytes, answer: Answer) -> bool:
    """Whether regcheck refused the history for a value that was written already, or at the line of a cas, of
    another operation that it doesn't take, or of a read's reply that only tells whether there was a value."""
    if answer.status != ExitStatus.REFUSED or answer.by_search:
        return False
    refusal = read_refusal(answer.refusal)
    if refusal is None or refusal.number not in (BAD_OP, NO_VALUE):
        return refusal is not None and refusal.number == REPEATED
    try:
        event = json_of(next(islice(io.BytesIO(history), refusal.line - 1, None)).rstrip(b"\n"))
    except (NotJson, StopIteration):
        return False
    return isinstance(event, dict) and (
        event.get("op") in SEARCHED if refusal.number == BAD_OP else "found" in event)


def with_search_hint(words: str, history: bytes, answer: Answer) -> str:
    """Some words about a refusal; where regsearch would take the history and isn't there, that too."""
    return f"{words}; {TAKEN_BY_SEARCH}" if is_for_search(history, answer) else words


def searched(history: bytes, answer: Answer, options: Sequence[str] = ()) -> Answer:
    """The answer of regsearch where that takes what regcheck refused, and is there; else the same answer.
    Raises NoChecker if it can't be started."""
    path = find_program(SEARCH) if is_for_search(history, answer) else None
    return answer if path is None else run_search(history, options, path)


def decide(history: bytes, options: Sequence[str] = ()) -> Answer:
    """The answer of whichever program takes the history. The options are those of regsearch."""
    return searched(history, judge(history), options)
