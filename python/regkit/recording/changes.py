"""Changes by the names that stores give them: put-if-absent, replace, locks, delete and swap."""
from typing import Optional

from regkit.recording.caller import Caller
from regkit.recording.calls import Call, Cas, Write
from regkit.recording.values import member, number_of


class Create(Cas):
    """The call of a put-if-absent: a cas from no value."""

    word, rest = "create", ", value"

    def __init__(self, client: Caller, register: str, value: int) -> None:
        super().__init__(client, register, None, value)


class Replace(Create):
    """The call of a put where there is a value: a cas unless there is none."""

    word, asks = "replace", "unless"


class Lock(Create):
    """The call of a lock or a try-lock: a cas from no value to the owner."""

    word, rest = "lock", ", owner"


class Unlock(Cas):
    """The call of an unlock, or of a delete of one value alone: a cas from the owner to no value."""

    word, rest = "unlock", ", owner"

    def __init__(self, client: Caller, register: str, owner: int) -> None:
        super().__init__(client, register, owner, owner)
        self.to, self.behind = None, f',"from":{owner},"to":null'


class Finding(Call):
    """A call whose answer may tell what was there."""

    _found: Optional[bool] = None
    _old: Optional[int] = None
    _tells_old = False

    @property
    def found(self) -> Optional[bool]:
        """Whether there was a value. None if that isn't said."""
        return self._found

    @found.setter
    def found(self, found: bool) -> None:
        if type(found) is not bool:
            raise self.mistake(f"was told {found!r}: `{self.name}.found` is True if there was a value, and "
                               "False if there was none")
        self._note(found)

    @property
    def old(self) -> Optional[int]:
        """The value that was there, as a number or None. It can be set to all that `number_of` takes."""
        return self._old

    @old.setter
    def old(self, old: object) -> None:
        number = self.checked(number_of, old)
        self._note(number is not None)
        self._old, self._tells_old = number, True

    def _note(self, found: bool) -> None:
        if self._stage != "open":
            raise self.outside()
        if self._found not in (None, found):
            raise self.mistake("was told that there was a value, and that there was none")
        self._found = found

    def reply_value(self) -> str:
        if self._tells_old:
            return f',"old":{member(self._old)}'
        return "" if self._found is None else f',"found":{"true" if self._found else "false"}'


class Delete(Finding):
    """The call of a delete."""

    op = "delete"

    def missing(self) -> str:
        return ""


class Swap(Finding, Write):
    """The call of a swap, also called get-and-set: it writes a value, and is answered what was there."""

    op = "swap"

    def missing(self) -> str:
        told = "" if self._found is not None else (
            "wasn't told what it found: set `swap.old` to what the store gives, or `swap.found`")
        return super().missing() or told
