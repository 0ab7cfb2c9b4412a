"""The lines of a history while it is recorded: whole at every moment, in the order in which things happen.

`regkit.record` is what a test uses; this is what its clients share."""
import heapq
import io
import json
import os
import pathlib
import threading
from typing import IO, Any, Callable, NamedTuple, NoReturn, Optional, Union

from regkit.base.limits import GREATEST_VALUE, LEAST_VALUE, MAX_NAME
from regkit.history.who import members
from regkit.words.phrases import counted

Output = Union[None, str, "os.PathLike[str]", IO[Any], io.IOBase]
Failures = Union[type[BaseException], tuple[type[BaseException], ...]]
Clock = Callable[[], int]  # gives nanoseconds, and never goes back


CARRIED = ("a recorder stays in the process that made it, and this is a child of that process: make a "
           "Recorder in each process, with a file, values_after and a clock of its own, and let regkit merge "
           "make one history of theirs")


class RecordingError(Exception):
    """The recorder was used in a way that would make the history wrong. The call stays pending."""


class Counts(NamedTuple):
    """How many calls were recorded, by what they are, and how they ended so far. Deletes and swaps are
    writes, as in a report."""

    reads: int
    writes: int
    cas: int
    answered: int
    failed: int

    @property
    def calls(self) -> int:
        return self.reads + self.writes + self.cas

    @property
    def unanswered(self) -> int:
        """Those that are open, or whose outcome stays unknown."""
        return self.calls - self.answered - self.failed

    def __str__(self) -> str:
        kinds = [counted(self.reads, "read"), counted(self.writes, "write")]
        kinds += [f"{self.cas:,} cas"] if self.cas else []
        return (f"{counted(self.calls, 'call')}: {', '.join(kinds)}; {self.answered:,} answered, "
                f"{self.failed:,} failed, {self.unanswered:,} open or unknown")


def quoted(name: str, what: str = "register") -> str:
    """The name of a register, a client or a node in JSON. Raises RecordingError if it is none."""
    try:
        size = len(name.encode("utf-8"))
    except (AttributeError, UnicodeEncodeError):
        size = 0
    if not 1 <= size <= MAX_NAME:
        raise RecordingError(f"{name!r} is no {what}: name it by a text of 1 to {MAX_NAME} bytes")
    return json.dumps(name)


class Log:
    """Where the lines go. Each is handed to the operating system whole before anything else happens."""

    def __init__(self, output: Output) -> None:
        self.path: Optional[pathlib.Path] = None
        self._output = output  # held, since a text file that nobody holds closes its buffer
        self._file: Any
        if output is None:
            self._file = io.BytesIO()
        elif isinstance(output, (str, os.PathLike)):
            self.path = pathlib.Path(output)
            self._place = self.path.absolute()  # the test may change its directory
            self._file = open(self._place, "wb", buffering=0)
        else:
            self._file = getattr(output, "buffer", output)

    def append(self, line: bytes) -> None:
        while line:
            line = line[self._file.write(line):]
        self._file.flush()

    def content(self) -> bytes:
        if self.path is not None:
            return self._place.read_bytes()
        if isinstance(self._file, io.BytesIO):
            return self._file.getvalue()
        raise RecordingError("the history went to a stream: give Recorder a path, or nothing, to get it back")

    def close(self) -> None:
        if self.path is not None:
            self._file.close()


class Journal:
    """What all clients share, behind one lock: the lines, the process numbers, and the written values."""

    def __init__(self, output: Output, failures: Failures, prefix: str = "", values_after: int = 0,
                 clock: Optional[Clock] = None) -> None:
        if prefix != "":
            quoted(prefix, "prefix")
        if type(values_after) is not int or not 0 <= values_after < GREATEST_VALUE:
            raise RecordingError(f"values_after is {values_after!r}: it is a whole number from 0")
        self.failures = failures
        self.prefix = prefix
        self.mistakes: list[RecordingError] = []
        self._log = Log(output)
        self._clock = clock
        self._lock = threading.Lock()
        self._closed = False
        self._maker = os.getpid()
        self._count = dict.fromkeys(("read", "write", "delete", "swap", "cas", "reply", "fail", "crash"), 0)
        self._free: dict[str, list[int]] = {}  # by whose they are, heaps of the process numbers given back
        self._processes = 0
        self._values_after = values_after
        self._values: dict[str, int] = {}  # register -> the greatest value written
        self._names: dict[str, str] = {}  # register -> its name in JSON

    @property
    def path(self) -> Optional[pathlib.Path]:
        return self._log.path

    def content(self) -> bytes:
        if self.is_carried:
            return self._log.content()
        with self._lock:
            return self._log.content()

    def mistake(self, text: str) -> RecordingError:
        """Keeps a mistake, so that it comes out even if it is raised in a thread that nobody looks at."""
        error = RecordingError(text)
        self.mistakes.append(error)
        return error

    def key(self, register: str) -> str:
        """The register's name, in the history as in the store. A call refuses what is no text."""
        return self.prefix + register if isinstance(register, str) else register

    def who(self, client: str, node: str) -> str:
        """The members that name a client and the node that it asks. Raises RecordingError."""
        try:
            for name, what in ((client, "client"), (node, "node")):
                if name != "":
                    quoted(name, what)
        except RecordingError as error:
            raise self.mistake(str(error)) from None
        return members(client, node)

    @property
    def is_carried(self) -> bool:
        """Whether this is a child of the process that made it, which shares the file and no number with it.
        Its lock may be held by a thread that the child doesn't have."""
        return os.getpid() != self._maker

    def __reduce__(self) -> NoReturn:
        raise RecordingError(CARRIED)

    @property
    def counts(self) -> Counts:
        with self._lock:
            count = dict(self._count)
        writes = count["write"] + count["delete"] + count["swap"]
        return Counts(count["read"], writes, count["cas"], count["reply"], count["fail"])

    def take(self, owner: Optional[str]) -> int:
        """A process number: one that was given back for this owner, or a new one."""
        self._refuse_carried()
        with self._lock:
            free = self._free.get(owner) if owner is not None else None
            if free:
                return heapq.heappop(free)
            self._processes += 1
            return self._processes

    def give_back(self, process: int, owner: Optional[str]) -> None:
        """Lets clients of this owner have a number, and nobody if that is None. Never that of a call that
        stays pending, or of a crash."""
        if owner is not None and not self.is_carried:
            with self._lock:
                heapq.heappush(self._free.setdefault(owner, []), process)

    def call(self, process: int, op: str, register: str, behind: Optional[str], who: str) -> Optional[int]:
        """Writes a call. `behind` is what the line says after its register. If it is None, that is a value
        which the register never had from here, and the value is given."""
        self._refuse_carried()
        with self._lock:
            if self._closed:
                raise RecordingError("the recorder is closed: let its clients end before you close it")
            name = self._names.get(register) or self._new_name(register)
            value = None
            if behind is None:
                value = self._values[register] = self._values.get(register, self._values_after) + 1
                behind = f',"value":{value}'
            self._append(f'{{"process":{process},"event":"call","op":"{op}","register":{name}{behind}{who}')
            self._count[op] += 1
        return value

    def expire(self, register: str, value: int, who: str) -> None:
        """Writes that a value may expire from here on: the call of a cas to no value, never answered."""
        if type(value) is not int or not LEAST_VALUE <= value <= GREATEST_VALUE:
            raise self.mistake(f"{value!r} can't expire: a value is a whole number of 64 bits")
        self.call(self.take(None), "cas", register, f',"from":{value},"to":null', who)

    def reply(self, process: int, register: str, value: str, who: str) -> None:
        """Writes a reply. It names its register, so that the line can be read alone."""
        self._refuse_carried()
        self._end(process, "reply", f',"register":{self._names[register]}{value}{who}')

    def fail(self, process: int, register: str, who: str) -> None:
        self._end(process, "fail", f',"register":{self._names[register]}{who}')

    def crash(self, process: int, who: str) -> None:
        self._end(process, "crash", who)

    def close(self) -> None:
        if not self.is_carried:
            with self._lock:
                self._closed = True
                self._log.close()

    def _refuse_carried(self) -> None:
        if self.is_carried:
            raise self.mistake(CARRIED)

    def _end(self, process: int, event: str, rest: str) -> None:
        """Writes a line that ends a call or a process, unless it comes after the end of the history. In a
        child it would be the line of another process."""
        if self.is_carried:
            return
        with self._lock:
            if not self._closed:
                self._append(f'{{"process":{process},"event":"{event}"{rest}')
                self._count[event] += 1

    def _new_name(self, register: str) -> str:
        try:
            name = self._names[register] = quoted(register)
        except RecordingError as error:
            raise self.mistake(str(error)) from None
        return name

    def _now(self) -> Optional[int]:
        """The time of a line that is written at once, so that the times follow the lines."""
        if self._clock is None:
            return None
        now = self._clock()
        if type(now) is not int or not 0 <= now <= GREATEST_VALUE:
            raise self.mistake(f"the clock gave {now!r}: give Recorder a clock of whole nanoseconds, such as "
                               "time.monotonic_ns")
        return now

    def _append(self, line: str) -> None:
        """Writes a line that lacks its time and its end."""
        line += members(time=self._now()) + "}\n"
        try:
            self._log.append(line.encode("ascii"))
        except BaseException as error:
            self._closed = True  # the line may be cut off, so none may follow it
            self.mistake(f"the history could not be written: {error!r}")
            raise
