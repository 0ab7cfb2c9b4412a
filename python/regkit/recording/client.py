"""A client, from which a test takes its calls."""
from typing import Optional

from regkit.recording.caller import Caller
from regkit.recording.calls import Cas, Read, Write
from regkit.recording.changes import Create, Delete, Lock, Replace, Swap, Unlock


class Client(Caller):
    """Makes one call after another under a process number of its own: a thread, a task, a connection.

    Each of its lines has its name, and the node that it asks, if they are given. `node` may be set to another
    one at any time, also within a call once the answer tells which server gave it.

    As a context manager, with `async` or without, it is closed at the end: a later client of its name may
    have its number, and no other client. If an exception leaves the block, it crashes."""

    def write(self, register: str, value: Optional[int] = None) -> Write:
        """The call of a write, for a `with` statement. Its `value` is what to write: the one that is given
        here, which may repeat, or one that the recorder chooses, which no other write of the register has."""
        return Write(self, register, value)

    def read(self, register: str) -> Read:
        """The call of a read, for a `with` statement. Set its `value` to what the store gives."""
        return Read(self, register)

    def cas(self, register: str, from_: Optional[int], to: int) -> Cas:
        """The call of a compare-and-swap, for a `with` statement. It writes `to` if the register holds
        `from_`, which is None for no value. Set its `ok` to whether it took place."""
        return Cas(self, register, from_, to)

    def delete(self, register: str) -> Delete:
        """The call of a delete, for a `with` statement. Set its `found` to whether there was a value, or its
        `old` to the value that was there, if the store tells."""
        return Delete(self, register)

    def swap(self, register: str, value: Optional[int] = None) -> Swap:
        """The call of a swap (get-and-set), for a `with` statement. Its `value` is what to write, as that of
        a write. Set its `old` to the value that was there, or `found` to whether there was one."""
        return Swap(self, register, value)

    def create(self, register: str, value: int) -> Create:
        """The call of a put-if-absent, for a `with` statement. Set its `ok` to whether it took place."""
        return Create(self, register, value)

    def replace(self, register: str, value: int) -> Replace:
        """The call of a put that takes place only where there is a value, for a `with` statement. Set its
        `ok` to whether it took place."""
        return Replace(self, register, value)

    def lock(self, register: str, owner: int) -> Lock:
        """The call of a lock or a try-lock, for a `with` statement. Set its `ok` to whether the owner got it:
        it didn't if somebody had it."""
        return Lock(self, register, owner)

    def unlock(self, register: str, owner: int) -> Unlock:
        """The call of an unlock, or of a delete of one value alone, for a `with` statement. Set its `ok` to
        whether the owner had it."""
        return Unlock(self, register, owner)

    def expires(self, register: str, value: int) -> None:
        """Says that a value may expire from now on, if it is still there. Call it at the earliest moment:
        when its time is over, less the error of the clocks; for a cache that evicts, before the store is
        given the value."""
        self.journal.expire(self.journal.key(register), value, self._who)
