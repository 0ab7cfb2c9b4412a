"""Who makes one call after another, under a process number of its own."""
from typing import Optional, TypeVar

from regkit.recording.journal import Journal

REPLY, FAIL, NOTHING = "reply", "fail", "nothing"  # what is written at the end of a call

AnyCaller = TypeVar("AnyCaller", bound="Caller")


class Caller:
    """A thread, a task or a connection. `Client` says what it is for a test."""

    def __init__(self, journal: Journal, name: str = "", node: str = "", alone: bool = False) -> None:
        self.journal = journal
        self.name = name
        self.alone = alone  # whether it makes one call
        # Whose process numbers it shares. A picture shows a number as one client, so others don't get it.
        self._owner = name if name or alone else None
        self.node = node
        self._process: Optional[int] = None  # from the first call on
        self._open = False  # whether a call is open right now
        self._spent = False  # whether the number has a call that stays pending
        self._gone = False

    @property
    def node(self) -> str:
        """The server that it asks."""
        return self._node

    @node.setter
    def node(self, node: str) -> None:
        self._who = self.journal.who(self.name, node)
        self._node = node

    def crash(self) -> None:
        """Says that this client does nothing more. A call that it has open, or left pending, stays so."""
        if self._process is not None and not self._gone:
            self.journal.crash(self._process, self._who)
        self._gone = True

    def close(self) -> None:
        """Says that this client is done. A later one of its name may have its process number."""
        if self._process is not None and not (self._gone or self._spent or self._open):
            self.journal.give_back(self._process, self._owner)
        self._gone = True

    def __enter__(self: AnyCaller) -> AnyCaller:
        return self

    def __exit__(self, kind: Optional[type[BaseException]], *_: object) -> None:
        if kind is None:
            self.close()
        else:
            self.crash()

    async def __aenter__(self: AnyCaller) -> AnyCaller:
        return self

    async def __aexit__(self, kind: Optional[type[BaseException]], *_: object) -> None:
        self.__exit__(kind)

    def begin(self, op: str, register: str, behind: Optional[str]) -> Optional[int]:
        """Writes the line of a call, and gives the value that the recorder chose, if it did. For Call
        alone."""
        if self._open:
            raise self.journal.mistake(f"the client has a call open while it calls a {op} of {register!r}: "
                                       "take a client for each thread and each task")
        if self._gone:
            raise self.journal.mistake(f"the client is closed or crashed, and calls a {op} of {register!r}")
        kept, self._spent = None if self._spent else self._process, True
        process = self.journal.take(self._owner) if kept is None else kept
        value = self.journal.call(process, op, register, behind, self._who)
        self._process, self._open, self._spent = process, True, False
        return value

    def end(self, register: str, ending: str, value: str) -> None:
        """Writes what ended the open call. If anything goes wrong before that, the call stays pending."""
        process, self._spent, self._open = self._process, True, False
        if self._gone or process is None or ending == NOTHING:
            return
        if ending == FAIL:
            self.journal.fail(process, register, self._who)
        else:
            self.journal.reply(process, register, value, self._who)
        self._spent = False
