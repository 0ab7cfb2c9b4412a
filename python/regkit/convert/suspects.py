"""Values that were found and that nothing writes, where the conversion may be the one that is wrong.

To give such a value to a read, or to a cas that took place, is a fault of the store, unless the value spells
null (none, []), is the one with which registers start (0), or has another kind than what is written: a client
may write 1 and read "1", 1M or ({:val 1}). A cas of an unknown outcome that asks for such a value may have
taken place too. To make up a fault is the worst that a conversion can do. So a person has to say what such a
value is.
"""
import shlex
from typing import Any, Iterator, Optional

from regkit.convert import edn
from regkit.convert.model import CAS, Choices, Refused, Source, SourceOperation, Value
from regkit.convert.spellings import bare, kind_of, parsed, spelled, unquoted
from regkit.convert.values import Written, initial_value, shown, unsettled
from regkit.words.phrases import counted

SPELL_NULL = frozenset({
    "", "-", "\\n", "()", "[]", "{}", "#{}", "<nil>", "(nil)", "(null)", "absent", "empty", "key not found",
    "key-does-not-exist", "missing", "n/a", "na", "nan", "nil", "no such key", "nokey", "none", "not found",
    "not-found", "not_found", "notfound", "null", "undefined"})
STARTS = frozenset({"0", "-1", "false"})  # what a register may have before any write, or what stands for none


def look_at_reads(source: Source, written: Written, choices: Choices) -> Iterator[str]:
    """Notes on finds that are faults if all was recorded well. Values aren't numbered yet.

    Raises Refused for the first one that the conversion may have misread. A value that is written only after
    it was found may be misread as well as one that is never written.
    """
    spellings = _Spellings(written, choices.form)
    nothing: dict[Value, SourceOperation] = {}
    begun: set[tuple[str, Value]] = set()  # what was written so far, by key
    unwritten = failed = 0
    for each, is_call in source.moments():
        if each.key in source.lists:
            continue
        if is_call:
            if each.kind != "read" and not each.missed:
                begun.add((each.key, each.value))
            if each.kind == CAS and each.ending in (None, "crash") and each.expected is not None:
                if not spellings.has(each.key, each.expected) or spellings.has_twin(each.key, each.expected):
                    _refuse_suspect(each, each.expected, spellings, choices)
            continue
        value = _find(each)
        if value is None:
            continue
        if (each.key, value) not in begun or spellings.has_twin(each.key, value):
            _refuse_suspect(each, value, spellings, choices)
        write = written.get(each.key, nothing).get(value)
        if write is None:
            unwritten += 1
        elif write.ending == "fail":
            failed += 1
    if unwritten:
        yield (f"{counted(unwritten, 'read')} gave a value that nothing writes: was the store empty before "
               "the run, and are values recorded alike by reads and by writes?")
    if failed:
        yield (f"{counted(failed, 'read')} gave a value of a failed write: is it sure that such a write has "
               "no effect? Else its outcome is unknown (--outcomes WORD=unknown)")


def _find(operation: SourceOperation) -> Value:
    """What an operation that was answered certainly found, if that is one value and not null."""
    if operation.ending != "reply":
        return None
    if operation.tells_old:
        return operation.old  # type: ignore[no-any-return]
    if operation.kind == CAS:  # the value that it names, if it asks for that and took place, or the contrary
        return operation.expected if operation.missed == operation.unless else None
    return operation.value if operation.kind == "read" else None


def _refuse_suspect(read: SourceOperation, found: Value, spellings: "_Spellings", choices: Choices) -> None:
    value = unsettled(found)
    why = None if spellings.has_twin(read.key, found) else spells_null(value, choices)
    if why is None and choices.values != "exact":
        why = spellings.why(read.key, found, choices)
    if why is not None:
        which = f", which nothing writes to {shown(read.key)}"
        if spellings.has_twin(read.key, found):
            which = f" of {shown(read.key)}"
        elif spellings.has(read.key, found):
            which += " before"
        raise Refused(f"a {_deed(read)} {edn.write(value)[:40]}{which}: {why}", read.end_line or read.line)


def _deed(operation: SourceOperation) -> str:
    if operation.kind == "read":
        return "read gave"
    return f"{operation.kind} found" if operation.ending == "reply" else "cas asks for"


def spells_null(value: Any, choices: Choices) -> Optional[str]:
    """What to say of a value that may be none, or the one before any write."""
    start = None if choices.initial is None else initial_value(choices.initial, choices.form)
    starts, spells = bare(value) in STARTS and choices.initial is None, unquoted(value).lower() in SPELL_NULL
    if not (starts or spells) or (choices.initial is not None and start is None):
        return None
    null = shlex.quote("--null=" + ",".join(sorted(choices.nulls | {spelled(value)})))
    initial = f"{shlex.quote('--initial=' + edn.write(value))} if registers start with it, " if starts else ""
    return (f"say {initial}{null} if it stands for none, or --initial=null if the store was wrong to give it")


class _Spellings:
    """How keys and the values written to them are spelled without what tells their kinds."""

    def __init__(self, written: Written, form: str) -> None:
        self._written = written
        self._form = form
        self._values: dict[str, set[str]] = {}  # by key
        self._parts: dict[tuple[str, bool], set[str]] = {}  # by key, and whether of all values or collections
        self._kinds: dict[str, set[str]] = {}  # by key
        self._twins: dict[str, set[Value]] = {}  # by key, what is written there in two kinds, spelled alike

    def has(self, key: str, value: Value) -> bool:
        """Whether a value is written at all."""
        return value in self._written.get(key, {})

    def has_twin(self, key: str, value: Value) -> bool:
        """Whether a value of another kind, spelled alike, is written to the key too."""
        twins = self._twins.get(key)
        if twins is None:
            twins = self._twins[key] = set()
            known: dict[str, Value] = {}
            written = self._written.get(key, {})
            for each in written if any(type(each) is str for each in written) else ():
                twin = known.setdefault(bare(unsettled(each)), each)
                if twin != each:
                    twins |= {twin, each}
        return value in twins

    def why(self, key: str, found: Value, choices: Choices) -> Optional[str]:
        """What to say of a value if it is like another one that is written, or like none."""
        value = unsettled(found)
        is_written = self.has(key, found)
        if self.has_twin(key, found) if is_written else bare(value) in self._values_of(key):
            return ("a value of another kind that is spelled alike is written there; say --values alike if "
                    "what is spelled alike is one value and one key, or --values exact if it isn't")
        if is_written:
            return None
        exact = ", or say --values exact if {}" if choices.values == "auto" else ""
        if _parts(value) & self._parts_of(key, _is_collection(value)):
            drop = "say --drop-versions if each value is [version value], " if self._form == "jepsen" else ""
            return (f"a value that has a part of it in common is written there; {drop}let the recorder keep "
                    f"the value alone, without a version{exact.format('they are several values')}")
        kind, kinds = kind_of(found), self._kinds_of(key)
        if not kinds or kind in kinds:
            return None
        null = shlex.quote("--null=" + ",".join(sorted(choices.nulls | {spelled(value)})))
        return (f"it is one of the {kind}, and only {' and '.join(sorted(kinds))} are written there; say "
                f"{null} if it stands for none, let the recorder keep what a read gives as it keeps what is "
                f"written{exact.format('the store was wrong to give it')}")

    def _kinds_of(self, key: str) -> set[str]:
        """The kinds of the values that are written to a key; of one that is never written, to any key."""
        if key not in self._kinds:
            keys = [key] if self._written.get(key) else list(self._written)
            self._kinds[key] = {kind_of(value) for each in keys for value in self._written[each]}
        return self._kinds[key]

    def _values_of(self, key: str) -> set[str]:
        known = self._values.get(key)
        if known is None:
            values = self._written.get(key, {})
            known = self._values[key] = {bare(unsettled(value)) for value in values}
        return known

    def _parts_of(self, key: str, of_all: bool) -> set[str]:
        """How the parts of what is written to a key are spelled, of all values or of collections."""
        known = self._parts.get((key, of_all))
        if known is None:
            values = map(unsettled, self._written.get(key, {}))
            known = self._parts[key, of_all] = {part for value in values if of_all or _is_collection(value)
                                                for part in _parts(value)}
        return known


def _whole(value: Any) -> Any:
    """A value, or the collection that it spells as a text or has behind a tag."""
    if type(value) is edn.Tagged:
        return _whole(value.value)
    return (parsed(value) or value) if type(value) is str else value


def _is_collection(value: Any) -> bool:
    return isinstance(_whole(value), (tuple, dict))


def _parts(value: Any) -> set[str]:
    """How what is in a collection is spelled, at any depth; of any other value, how it is spelled itself."""
    whole = _whole(value)
    if isinstance(whole, dict):
        whole = tuple(whole.values())
    if isinstance(whole, tuple):
        return {part for each in whole for part in _parts(each)}
    return set() if value is None else {bare(value)}
