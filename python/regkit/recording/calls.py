"""A call, open from the beginning of its `with` block to the end: how the block is left says how it ended."""
from types import TracebackType
from typing import Any, Callable, Optional, TypeVar

from regkit.recording.caller import FAIL, NOTHING, REPLY, Caller
from regkit.recording.journal import RecordingError
from regkit.recording.values import chosen, member, number_of

AnyCall = TypeVar("AnyCall", bound="Call")
Number = TypeVar("Number", int, Optional[int])


class Call:
    """A call, open from the beginning of its `with` block to the end."""

    op = ""
    word = ""  # by which a client calls it, if that isn't its op
    rest = ""  # of its arguments, for a person
    behind: Optional[str] = ""  # what its line says after the register; None for a value that is chosen

    def __init__(self, client: Caller, register: str) -> None:
        self.register = client.journal.key(register)  # its name in the store, too
        self._client = client
        self._stage = "new"  # then "open", then "ended"
        self._said: Optional[str] = None  # if the caller said it
        self._number: Optional[int] = None

    def failed(self) -> None:
        """Says that the call certainly had no effect, however the block is left."""
        self._say(FAIL)

    def unknown(self) -> None:
        """Says that nobody knows whether it had an effect. It stays pending, however the block is left."""
        self._say(NOTHING)

    def _say(self, ending: str) -> None:
        if self._stage != "open":
            raise self.outside()
        self._said = ending

    def outside(self) -> RecordingError:
        block = f"with client.{self.name}({self.register!r}{self.rest}) as {self.name}:"
        return self.mistake(f"is used outside its block: `{block}`")

    def mistake(self, text: str) -> RecordingError:
        return self._client.journal.mistake(f"a {self.name} of {self.register!r} {text}")

    @property
    def name(self) -> str:
        return self.word or self.op

    def checked(self, check: Callable[[object], Number], value: object) -> Number:
        """The number of a value. A value that is none is a mistake."""
        try:
            return check(value)
        except RecordingError as error:
            raise self.mistake(f"was refused: {error}") from None

    def __enter__(self: AnyCall) -> AnyCall:
        if self._stage != "new":
            raise self.mistake("is called a second time: make each call anew")
        number = self._client.begin(self.op, self.register, self.behind)
        self._number = self._number if number is None else number
        self._stage = "open"
        return self

    def __exit__(self, kind: Optional[type[BaseException]], error: Optional[BaseException],
                 trace: Optional[TracebackType]) -> None:
        self._stage = "ended"
        missing = "" if self._said or kind is not None else self.missing()
        self._client.end(self.register, self._ending(kind, missing), self.reply_value())
        if self._client.alone:
            self._client.close()
        if missing:
            raise self.mistake(missing)

    async def __aenter__(self: AnyCall) -> AnyCall:
        return self.__enter__()

    async def __aexit__(self, kind: Optional[type[BaseException]], error: Optional[BaseException],
                        trace: Optional[TracebackType]) -> None:
        self.__exit__(kind, error, trace)

    def _ending(self, kind: Optional[type[BaseException]], missing: str) -> str:
        if self._said:
            return self._said
        if kind is not None:
            return FAIL if issubclass(kind, self._client.journal.failures) else NOTHING
        return NOTHING if missing else REPLY

    def missing(self) -> str:
        """What the block should have done and didn't, so that no reply would be true."""
        raise NotImplementedError

    def reply_value(self) -> str:
        """The last member of the reply's line."""
        raise NotImplementedError


class Write(Call):
    """The call of a write."""

    op = "write"
    _asked = False

    def __init__(self, client: Caller, register: str, value: Optional[int] = None) -> None:
        super().__init__(client, register)
        self.behind = None
        if value is not None:
            self._number, self._asked = self.checked(chosen, value), True
            self.behind = f',"value":{self._number}'

    @property
    def value(self) -> int:
        """The value to write."""
        if self._number is None:
            raise self.outside()
        self._asked = True
        return self._number

    def missing(self) -> str:
        return "" if self._asked else f"never asked for its value: give the store `{self.name}.value`"

    def reply_value(self) -> str:
        return ""


class Read(Call):
    """The call of a read."""

    op = "read"
    _given = False

    @property
    def value(self) -> Any:
        """What the store gave, as a whole number or None. It can be set to all that `number_of` takes."""
        if not self._given:
            raise self.mistake("has no value yet: set `read.value` to what the store gives")
        return self._number

    @value.setter
    def value(self, value: object) -> None:
        if self._stage != "open":
            raise self.outside()
        self._number = self.checked(number_of, value)
        self._given = True

    def missing(self) -> str:
        return "" if self._given else "was given no value: set `read.value`, to None if the store has none"

    def reply_value(self) -> str:
        return f',"value":{member(self._number)}'


class Cas(Call):
    """The call of a compare-and-swap."""

    op = "cas"
    rest = ", from_, to"
    asks = "from"  # the member that has `from_`
    _ok: Optional[bool] = None

    def __init__(self, client: Caller, register: str, from_: Optional[int], to: int) -> None:
        super().__init__(client, register)
        self.from_ = None if from_ is None else self.checked(chosen, from_)
        self.to: Optional[int] = self.checked(chosen, to)
        self.behind = f',"{self.asks}":{member(self.from_)},"to":{self.to}'

    @property
    def ok(self) -> Optional[bool]:
        """Whether it took place: it found `from_`, and wrote `to`. None if that isn't said yet.

        False says that it missed: the store compared, and found another value. If the store refused without
        comparing, say `failed()`; if nobody knows what it did, say `unknown()`."""
        return self._ok

    @ok.setter
    def ok(self, ok: bool) -> None:
        if self._stage != "open":
            raise self.outside()
        if type(ok) is not bool:
            raise self.mistake(f"was told {ok!r}: `{self.name}.ok` is True if it took place, and False if it "
                               "missed")
        self._ok = ok

    def missing(self) -> str:
        return ("" if self._ok is not None
                else f"wasn't told how it ended: set `{self.name}.ok` to whether it took place")

    def reply_value(self) -> str:
        return f',"ok":{"true" if self._ok else "false"}'
