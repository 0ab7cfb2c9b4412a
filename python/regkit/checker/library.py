"""The checkers as a library in this process: a small history is checked before a program would have started.

`REGCHECK_LIBRARY` names the library's file; set to nothing, it says to use the program alone."""
import ctypes
import ctypes.util
import os
import pathlib
import sys
from functools import lru_cache
from typing import Any, Callable, Iterator, NamedTuple, Optional

from regkit import __version__
from regkit.base.limits import MAX_CONFIGURATIONS, MAX_STEPS
from regkit.base.statuses import ExitStatus
from regkit.checker.levels import REQUIRED
from regkit.checker.programs import CHECK, VARIABLES

TOO_SMALL = 5  # the only status of regcheck.h that isn't one of the programs: the report needs more room
FILE = "libregcheck.so.1"  # the number is that of the interface
LINE_LENGTH = 128  # REGCHECK_LINE_LENGTH
STALE, ORDERS = 1, 2  # REGLEVEL_STALE and REGLEVEL_ORDERS; the levels have the numbers of their places
OUT_OF_MEMORY = "no memory or no thread", 17  # words and number, which a library without memory can't give


class NoLibrary(Exception):
    """The file in REGCHECK_LIBRARY isn't the library, or is too old."""


class Told(NamedTuple):
    """What the library says of a history."""

    status: int  # one of ExitStatus, as the program's
    report: bytes
    refusal: str  # in the words of the program
    number: int = 0  # of the refusal
    line: int = 0
    other: int = 0


class _Answer(ctypes.Structure):
    """`regcheck_answer` of regcheck.h."""

    _fields_ = [("status", ctypes.c_uint32), ("number", ctypes.c_uint32), ("line", ctypes.c_uint32),
                ("other", ctypes.c_uint32), ("length", ctypes.c_uint64)]


_INPUT = (ctypes.c_char_p, ctypes.c_size_t)
_BOUNDS = (ctypes.c_uint64, ctypes.c_size_t)
_LEVEL = (ctypes.c_uint32, ctypes.c_uint32)
_OUTPUT = (ctypes.c_char_p, ctypes.c_size_t)
_ANSWER = (*_OUTPUT, ctypes.POINTER(_Answer))


class Library:
    """The calls of regcheck.h. Threads may use it at once; Python's lock is free meanwhile."""

    def __init__(self, path: str) -> None:
        self._path = path
        try:
            self._library = ctypes.CDLL(path)
        except OSError as error:
            raise self._refused(str(error)) from error
        self._check = self._function("regcheck_report", (*_INPUT, *_ANSWER))
        self._check_refusal = self._function("regcheck_refusal", (*_INPUT, *_OUTPUT), ctypes.c_size_t)
        self._search = self._function("regsearch_report", (*_INPUT, *_BOUNDS, *_ANSWER))
        self._search_refusal = self._function("regsearch_refusal", (*_INPUT, *_OUTPUT), ctypes.c_size_t)
        self._levels = self._function("reglevel_report", (*_INPUT, *_LEVEL, *_ANSWER))

    def _function(self, name: str, types: tuple[Any, ...], result: Any = None) -> Callable[..., Any]:
        try:
            function: Any = getattr(self._library, name)
        except AttributeError as error:
            if hasattr(self._library, "regcheck_report"):  # the first that there was
                raise NoLibrary(f"{self._path} is too old for regkit {__version__}: it has no {name}. "
                                "Install the library of the same release") from error
            raise self._refused(str(error)) from error
        function.argtypes, function.restype = types, result
        return function  # type: ignore[no-any-return]

    def _refused(self, why: str) -> NoLibrary:
        return NoLibrary(f"{self._path} is not the library of regcheck: {why}. Is REGCHECK_LIBRARY right?")

    def check(self, history: bytes) -> Told:
        """What `regcheck` would say of the history, byte for byte."""
        return self._told(self._check_refusal, history, *self._answered(self._check, history))

    def search(self, history: bytes, steps: int = 0, configurations: int = 0) -> Told:
        """What `regsearch` would say of the history within these bounds, byte for byte. A bound of 0 is its
        default.

        Raises ValueError if a bound is out of range."""
        if not (0 <= steps <= MAX_STEPS and 0 <= configurations <= MAX_CONFIGURATIONS):
            raise ValueError(f"steps may be up to {MAX_STEPS}, and configurations up to {MAX_CONFIGURATIONS}")
        answered = self._answered(self._search, history, steps, configurations)
        return self._told(self._search_refusal, history, *answered)

    def levels(self, history: bytes, level: str = "atomic", *, stale: bool = False,
               orders: bool = False) -> Told:
        """What `reglevel` would say of the history with these options, byte for byte.

        Raises ValueError if there is no such level."""
        if level not in REQUIRED:
            raise ValueError(f"{level!r} is no level: it is one of {', '.join(REQUIRED)}")
        more = STALE * stale + ORDERS * orders
        answered = self._answered(self._levels, history, REQUIRED.index(level), more)
        return self._told(self._check_refusal, history, *answered)

    @staticmethod
    def _answered(function: Callable[..., None], history: bytes, *numbers: int) -> tuple[_Answer, bytes]:
        room = len(history) + 1024  # enough unless registers have few operations
        while True:
            out, answer = ctypes.create_string_buffer(room), _Answer()
            function(history, len(history), *numbers, out, room, ctypes.byref(answer))
            if answer.status != TOO_SMALL:
                return answer, out.raw[:answer.length]
            room = answer.length

    @staticmethod
    def _told(refusal: Callable[..., int], history: bytes, answer: _Answer, report: bytes) -> Told:
        if answer.status in (ExitStatus.ATOMIC, ExitStatus.NOT_ATOMIC, ExitStatus.UNKNOWN):
            return Told(answer.status, report, "")
        line = ctypes.create_string_buffer(LINE_LENGTH)
        if (answer.status == ExitStatus.REFUSED
                and (length := refusal(history, len(history), line, LINE_LENGTH))):
            words = line.raw[:length].decode()
            return Told(ExitStatus.REFUSED, b"", words, answer.number, answer.line, answer.other)
        return Told(ExitStatus.FAILED, b"", *OUT_OF_MEMORY)


def _places() -> Iterator[str]:
    """Where the library may be: in the package, below the installed command's prefix, or where the system
    looks."""
    within = pathlib.Path(__file__).resolve().parents[1] / FILE
    if within.is_file():
        yield str(within)
    started = pathlib.Path(sys.argv[0])
    beside = started.resolve().parent.parent / "lib" / FILE
    if started.is_file() and beside.is_file():
        yield str(beside)
    known = ctypes.util.find_library("regcheck")
    if known is not None:
        yield known


@lru_cache(maxsize=None)
def _loaded(path: str) -> Library:
    return Library(path)


def find_library(program: str = CHECK) -> Optional[Library]:
    """The library in REGCHECK_LIBRARY, or the one installed with this command, or the system's, to stand in
    the place of a program; None if there is none.

    If that isn't set, but REGCHECK or the program's own variable is, a program is what was asked for. Raises
    NoLibrary if REGCHECK_LIBRARY names another file."""
    named = os.environ.get("REGCHECK_LIBRARY")
    if named is not None:
        return _loaded(named) if named else None
    if any(os.environ.get(VARIABLES[name]) for name in (CHECK, program)):
        return None
    for place in _places():
        try:
            return _loaded(place)
        except NoLibrary:  # a file of another machine or project
            continue
    return None
