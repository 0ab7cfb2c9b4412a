"""The recorder of a test."""
import pathlib
from typing import Optional

from regkit.recording.calls import Cas, Read, Write
from regkit.recording.changes import Create, Delete, Lock, Replace, Swap, Unlock
from regkit.recording.client import Client
from regkit.recording.journal import Clock, Counts, Failures, Journal, Output, RecordingError
from regkit.recording.wrapped import Methods, Wrapped
from regkit.words.progress import Progress


class Recorder:
    """A history in the making. `output` is a path, a stream such as sys.stdout, or None to keep it in memory.

    - `failures`: an exception of these that leaves the block of a call says that it certainly had no effect.
    - `prefix`: each register's name begins with it. `call.register` is the whole name, for the store.
    - `values_after`: the values of a register's writes are this number plus 1, 2, 3, and so on.
    - `clock`: gives the time of each line, in whole nanoseconds, such as time.monotonic_ns.
    - `progress`: a line on the terminal says how many calls there are, while the run takes its time."""

    def __init__(self, output: Output = None, failures: Failures = (), *, prefix: str = "",
                 values_after: int = 0, clock: Optional[Clock] = None, progress: bool = False) -> None:
        self._journal = Journal(output, failures, prefix, values_after, clock)
        self.checked = False  # whether a test has looked at the verdict
        self.level: Optional[str] = None  # that it asked for then, if not for linearizable
        self._progress = Progress(label_of=lambda: f"recording {self.counts}") if progress else None
        if self._progress is not None:
            self._progress.__enter__()

    def client(self, name: str = "", node: str = "") -> Client:
        """A client for one thread or task. Its first call takes a process number.

        Its lines have its name, and the node (the server of the store) that it asks, if they are given."""
        return Client(self._journal, name, node)

    def wrap(self, store: object, methods: Methods = Methods(), name: str = "", node: str = "") -> Wrapped:
        """A client of a store, whose calls are recorded as they are made. `methods` says which do what.

        Threads and tasks may share it: each call gets a process number that is free. What the caller writes
        may repeat."""
        return Wrapped(store, methods, lambda: Client(self._journal, name, node, alone=True))

    def _client_of_one_call(self) -> Client:
        return Client(self._journal, alone=True)

    def write(self, register: str, value: Optional[int] = None) -> Write:
        """A write under any free process number. Take a client where one thread makes several calls."""
        return Write(self._client_of_one_call(), register, value)

    def read(self, register: str) -> Read:
        """A read under any free process number. Take a client where one thread makes several calls."""
        return Read(self._client_of_one_call(), register)

    def cas(self, register: str, from_: Optional[int], to: int) -> Cas:
        """A cas under any free process number. Take a client where one thread makes several calls."""
        return Cas(self._client_of_one_call(), register, from_, to)

    def delete(self, register: str) -> Delete:
        """A delete under any free process number. Take a client where one thread makes several calls."""
        return Delete(self._client_of_one_call(), register)

    def swap(self, register: str, value: Optional[int] = None) -> Swap:
        """A swap under any free process number. Take a client where one thread makes several calls."""
        return Swap(self._client_of_one_call(), register, value)

    def create(self, register: str, value: int) -> Create:
        """A put-if-absent under any free process number."""
        return Create(self._client_of_one_call(), register, value)

    def replace(self, register: str, value: int) -> Replace:
        """A put where there is a value, under any free process number."""
        return Replace(self._client_of_one_call(), register, value)

    def lock(self, register: str, owner: int) -> Lock:
        """A lock or a try-lock under any free process number."""
        return Lock(self._client_of_one_call(), register, owner)

    def unlock(self, register: str, owner: int) -> Unlock:
        """An unlock, or a delete of one value alone, under any free process number."""
        return Unlock(self._client_of_one_call(), register, owner)

    def expires(self, register: str, value: int) -> None:
        """Says that a value may expire from now on, as a client's `expires` does."""
        self._client_of_one_call().expires(register, value)

    @property
    def path(self) -> Optional[pathlib.Path]:
        """Where the history is, if it goes to a path."""
        return self._journal.path

    @property
    def counts(self) -> Counts:
        """How many calls there are so far, and how they ended."""
        return self._journal.counts

    @property
    def mistakes(self) -> list[RecordingError]:
        """Each wrong use so far, also one that was raised in a thread that nobody looked at."""
        return list(self._journal.mistakes)

    def history(self) -> bytes:
        """The lines so far, which are a history at any moment: what is open is pending."""
        return self._journal.content()

    def close(self) -> None:
        """Ends the history. Open calls stay pending, and a later call raises RecordingError."""
        self._journal.close()
        if self._progress is not None:
            self._progress.end()

    def __enter__(self) -> "Recorder":
        return self

    def __exit__(self, *_: object) -> None:
        self.close()

    async def __aenter__(self) -> "Recorder":
        return self

    async def __aexit__(self, *_: object) -> None:
        self.close()
