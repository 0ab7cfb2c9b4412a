"""A client of a store whose calls are recorded as they are made, without a block for each."""
import contextlib
import inspect
from typing import Any, Callable, NamedTuple, NoReturn, Optional

from regkit.recording.calls import Call, Cas, Read
from regkit.recording.changes import Delete
from regkit.recording.client import Client
from regkit.recording.journal import RecordingError
from regkit.recording.values import number_of

Words = tuple[Any, ...]


class Methods(NamedTuple):
    """Which methods of a client of a store do what. Each takes the key first, and its values behind it."""

    read: str = "get"
    write: str = "set"
    cas: str = ""  # it takes what it asks for and what it writes, and gives True, or False if it missed
    value_of: Callable[[Any], object] = lambda found: found  # the value in what a read gives
    is_written: Callable[[Any], bool] = lambda answer: answer is None or answer is True
    others: tuple[str, ...] = ()  # methods that neither read nor change a key that is recorded
    delete: str = "delete"
    found_of: Optional[Callable[[Any], Optional[bool]]] = None  # whether a delete's answer tells of a value


class Wrapped:
    """A client of a store. It has its attributes; of its methods, those that `Methods` names.

    What isn't understood, a method, an argument or an answer, is a mistake of the recorder: it may have read
    or changed a key, and the history wouldn't say so."""

    def __init__(self, store: object, methods: Methods, client: Callable[[], Client]) -> None:
        self._store = store
        self._methods = methods
        self._client = client  # a new one for each call, so that several may be open

    def __getattr__(self, name: str) -> Any:
        if name.startswith("_"):
            raise AttributeError(name)
        own, methods = getattr(self._store, name), self._methods
        called = {methods.read: self._read, methods.write: self._write, methods.cas: self._cas,
                  methods.delete: self._delete}.get(name)
        if called is not None:
            return lambda *words, **named: self._record(own, called(name, words, named), words[1:])
        if callable(own) and name not in methods.others:
            return lambda *_, **__: self._refuse(
                f"{name} isn't recorded, and it may read or change a key: name it in Methods(read=.., "
                "write=.., cas=.., delete=..), or in others=(..) if it does neither")
        return own

    def _refuse(self, text: str) -> NoReturn:
        raise self._client().journal.mistake(text)

    def _read(self, name: str, words: Words, named: dict[str, Any]) -> Call:
        key, = self._known(name, ("the key",), words, named)
        return self._client().read(key)

    def _write(self, name: str, words: Words, named: dict[str, Any]) -> Call:
        key, value = self._known(name, ("the key", "the value"), words, named)
        return self._client().write(key, self._written(name, value))

    def _cas(self, name: str, words: Words, named: dict[str, Any]) -> Call:
        meant = ("the key", "what it asks for", "what it writes")
        key, asked, value = self._known(name, meant, words, named)
        return self._client().cas(key, self._number(name, asked), self._written(name, value))

    def _delete(self, name: str, words: Words, named: dict[str, Any]) -> Call:
        key, = self._known(name, ("the key",), words, named)
        return self._client().delete(key)

    def _known(self, name: str, meant: tuple[str, ...], words: Words, named: dict[str, Any]) -> Words:
        """The arguments of a call. What isn't known may change what the call does."""
        if named or len(words) != len(meant):
            given = [repr(word) for word in words] + [f"{word}={value!r}" for word, value in named.items()]
            self._refuse(f"{name}({', '.join(given)}) isn't understood: it takes {', '.join(meant)} and "
                         "nothing else. Record another call in a block, such as `with client.write(key) as "
                         "write:`")
        return words

    def _number(self, name: str, value: object) -> Optional[int]:
        try:
            return number_of(value)
        except RecordingError:
            self._refuse(f"{name} was given {value!r}: a value is a whole number of 64 bits, or its text or "
                         "bytes")

    def _written(self, name: str, value: object) -> int:
        number = self._number(name, value)
        if number is None:
            self._refuse(f"{name} writes None, which is no value: name the method that deletes a key in "
                         "Methods(delete=..)")
        return number

    def _record(self, own: Callable[..., Any], call: Call, values: Words) -> Any:
        """Makes a call. If its answer is to be awaited, so is what this gives."""
        with contextlib.ExitStack() as block:
            block.enter_context(call)
            answer = own(call.register, *values)
            if inspect.isawaitable(answer):
                return self._awaited(block.pop_all(), call, answer)
            return self._answered(call, answer)

    async def _awaited(self, block: contextlib.ExitStack, call: Call, answer: Any) -> Any:
        with block:
            return self._answered(call, await answer)

    def _answered(self, call: Call, answer: Any) -> Any:
        """Notes an answer. One that isn't understood leaves the call pending."""
        if isinstance(call, Read):
            call.value = self._methods.value_of(answer)
        elif isinstance(call, Cas):
            call.ok = answer
        elif isinstance(call, Delete):
            self._note_found(call, answer)
        elif not self._methods.is_written(answer):
            raise call.mistake(f"was answered {answer!r}: let Methods(is_written=..) tell by which answers "
                               "it took place")
        return answer

    def _note_found(self, call: Delete, answer: Any) -> None:
        """Notes what the answer to a delete tells. True may say that there was a value, or that there is none
        any more."""
        found_of = self._methods.found_of
        if found_of is None and answer is not None:
            raise call.mistake(f"was answered {answer!r}: say Methods(found_of=bool) if that tells whether "
                               "there was a value, or Methods(found_of=lambda answer: None) if it doesn't")
        found = None if found_of is None else found_of(answer)
        if found is not None:
            call.found = found
