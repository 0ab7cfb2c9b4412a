"""Puts by version, as cas on the value with its version.

    put "a" if the version is 3     cas from the one value of version 3 to "a" as the next version
    get, answered "a" and 4         a read of "a" as version 4

A put takes place exactly if its key has the version that it gives, and nothing else changes a key. So each
version is made by one put, and has one value: that of the put that certainly made it, or that a get gave with
it, or else one that nobody saw. That the key has this version is that it has this value. A key that nobody
has put has version 0, which is null here.

By --versions the version after 3 is 4. By --revisions it is the least greater one that any operation names
which took place: versions may skip numbers, as etcd's revisions do, but each put gives a greater one. A put
without a reply that would give a version another value than the one it has can't have taken place.
"""
from typing import Any, Iterable, Iterator, Optional

from regkit.base.limits import GREATEST_VALUE
from regkit.convert import edn, revisions
from regkit.convert.model import CAS, Choices, Refused, Source, SourceOperation, Value
from regkit.convert.spellings import spelled
from regkit.convert.values import shown, unsettled
from regkit.words.phrases import counted

# A put by version 3, as a form has it that tells of cas only.
_AS_CAS = {"jepsen": ":f :cas, :value [3 4]", "log": ':f :cas, :value ["3" "4"]',
           "jsonl": '"op":"cas","from":3,"to":4'}
_ALONE = ("each register has the versions of its key, and a put is a cas from its version to the next: the "
          "values aren't checked")
_BOTH = ("each value of the history is [version value], and a put is a cas from the value of its version to "
         "the next")
_UNSEEN = edn.Symbol("?")  # the value of a version that nobody saw


def not_of(form: str) -> str:
    """What to do about a form whose puts give no version of their own."""
    return ("--versions and --revisions are for Go's values as JSON (--from porcupine), for tables and for "
            "operations as JSON: here, record a put by version as a cas from its version to the next one, as "
            f"in {_AS_CAS[form]}")


# ---- what the source says


def asked(given: Any, member: str, line: int) -> int:
    """The version that a put asks for."""
    return _version(given, f"put has {{}} in {member}", line)


def refuse_asked(given: Any, line: int) -> None:
    """The call of a get has no version, or Go's zero."""
    if given not in (None, 0):
        raise Refused(f"the input of a get has the version {spelled(given)[:40]}, and by --versions only a "
                      "put asks for one: a read of an old version is none of a register", line)


def found(given: Any, member: str, line: int) -> int:
    """The version that a get found."""
    return _version(given, f"answer to a get has {{}} in {member}", line)


def told(given: Any, version: int, ending: Optional[str], choices: Choices, line: int) -> Optional[int]:
    """What the answer to a put says of a version: none, or Go's zero, or the one that it gave or found."""
    if given in (None, 0):
        return None
    if ending == "missed":
        is_right, why = given != version, "missed a put of this version"
    elif ending == "reply" and choices.revisions:
        is_right, why = type(given) is int and given > version, "gave a greater one, if versions go up"
    elif ending == "reply":
        is_right, why = given == version + 1, (
            "gave the next one: if versions may skip numbers, say --revisions in place of --versions")
    else:
        is_right, why = False, "didn't take place, so it gave none"
    if type(given) is not int or not is_right:
        raise Refused(f"the answer to a put has the version {spelled(given)[:40]}, and the put asks for the "
                      f"version {version} and {why}", line)
    return given


def _version(given: Any, where: str, line: int) -> int:
    if type(given) is not int or not 0 <= given < GREATEST_VALUE:
        said = "no version" if given in (None, "") else f"the version {spelled(given)[:40]}"
        raise Refused(f"the {where.format(said)}, and by --versions a whole number from 0 is expected", line)
    return given


# ---- what is made of it


def fold(source: Source, operations: Iterable[SourceOperation], choices: Choices) -> None:
    """Makes reads and cas of gets and of puts by version."""
    if choices.versions is None:
        return
    by_key: dict[str, list[SourceOperation]] = {}
    for operation in operations:
        by_key.setdefault(operation.key, []).append(operation)
    impossible: set[SourceOperation] = set()
    changed = {key for key, mine in by_key.items() if choices.revisions and revisions.are_for(mine)}
    revisions.fold(source, [by_key[key] for key in by_key if key in changed], choices)
    for key in by_key.keys() - changed:
        impossible |= set(_Key(by_key[key], choices).fold())
    source.notes.append(_ALONE if "value" in choices.ignored else _BOTH)
    if impossible:
        source.leave_out(impossible)
        source.notes.append(f"left out {counted(len(impossible), 'put')} of unknown outcome that can't have "
                            "taken place, since the version has another value")


class _Key:
    """The operations of one key."""

    def __init__(self, operations: list[SourceOperation], choices: Choices) -> None:
        self.choices = choices
        self.has_values = "value" not in choices.ignored
        self.gets = [each for each in operations if each.kind == "read"]
        self.puts = [each for each in operations if each.kind == "write"]
        self._refuse_others(operations)
        self.next = self._next() if choices.revisions else {}
        self._refuse_unversioned()
        self.values: dict[int, Value] = {}  # by version, if somebody tells it
        for put in self.puts:
            if _took_place(put) and put.told_version is not None:
                self.values.setdefault(put.told_version, put.value)
        for put in self.puts:
            if _took_place(put) and put.told_version is None:
                self.values.setdefault(self._after(put.version or 0), put.value)
        for get in self.gets:
            if get.ending == "reply" and get.version:
                self.values.setdefault(get.version, get.value)

    def fold(self) -> Iterator[SourceOperation]:
        """Gives the puts that can't have taken place."""
        for get in self.gets:
            get.value = self._named(get.version, get.value) if get.ending == "reply" and get.version else None
        for put in self.puts:
            version = put.version or 0
            if put.missed and put.told_version is not None:
                put.kind, put.missed, put.value = "read", False, self._of(put.told_version)
                continue
            after = self._after(version) if put.told_version is None else put.told_version
            is_unknown = put.ending in (None, "crash")
            if is_unknown and self.has_values and self.values.get(after, put.value) != put.value:
                yield put
            put.kind, put.expected = CAS, self._of(version)
            put.value = self._of(after) if is_unknown else self._named(after, put.value)

    def _refuse_others(self, operations: Iterable[SourceOperation]) -> None:
        for each in operations:
            is_get = each.kind == "read" and each.found is None
            if not is_get and (each.kind != "write" or each.version is None):
                raise Refused(f"this {each.kind} of {shown(each.key)} asks for no version, and others do: "
                              "what changes a key whatever its version is doesn't tell the version that it met. "
                              "Let it ask for a version, or leave out such keys with --ops WORD=other "
                              "--skip-key", each.line)

    def _refuse_unversioned(self) -> None:
        """A get that found a value found its version too, and one that found none has version 0 or none."""
        puts_null = any(put.value is None for put in self.puts)
        for get in self.gets if self.has_values else ():
            if get.ending != "reply" or bool(get.version) == (get.value is not None) or (
                    get.version and puts_null):
                continue
            version = "no version" if get.version is None else f"version {get.version}"
            raise Refused(f"a get found {'no value' if get.value is None else shown(get.value)[:40]} and "
                          f"{version}: let it have the version of the value that it found, and no value at "
                          "version 0", get.end_line or get.line)

    def _next(self) -> dict[int, int]:
        """By version that an operation names which took place, the next such version."""
        named = {0}
        for put in self.puts:
            named |= {put.told_version or 0, put.version or 0 if _took_place(put) else 0}
        named |= {get.version or 0 for get in self.gets if get.ending == "reply"}
        for put in self.puts:
            if put.ending in (None, "crash") and put.version not in named:
                raise Refused(f"a put of unknown outcome asks for version {put.version}, which no operation "
                              "names that certainly took place: so nobody can tell which version came "
                              "before. Record the gets by which the client knew it", put.line)
        ordered = sorted(named)
        return dict(zip(ordered, ordered[1:]))

    def _after(self, version: int) -> int:
        """The version after one; of the last one by --revisions, the negative of it."""
        if not self.choices.revisions:
            return version + 1
        return self.next.get(version, -version - 1)

    def _of(self, version: int) -> Value:
        """The one value of a version, as the history has it."""
        if not version:
            return None
        if version in self.values or not self.has_values:
            return self._named(version, self.values.get(version))
        return edn.write((_symbol(version), _UNSEEN))

    def _named(self, version: int, value: Value) -> Value:
        if self.has_values:
            return edn.write((_symbol(version), unsettled(value)))
        return version if version >= 0 else edn.write(_symbol(version))


def _symbol(version: int) -> Any:
    """A version as the history has it; one that nobody named is after another one."""
    return version if version >= 0 else edn.Symbol(f"after-{-version - 1}")


def _took_place(put: SourceOperation) -> bool:
    return put.ending == "reply" and not put.missed
