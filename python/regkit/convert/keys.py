"""The keys of a source as its registers: one text for each, and none that may be several or another one.

An operation without a key, beside others with one, may touch any register. A key such as x,y, of which x and
y are keys by themselves, may be both. Two keys that are spelled alike, as 5 and "5", may be one. To guess
could make a right history look faulty, so each is refused until the options say what it means.
"""
import re
from typing import Any, Iterable, Iterator, Optional

from regkit.convert import edn
from regkit.convert.model import (CHANGES, KNOWN, NO_KEY, OTHER, READ_AND_WRITE, Choices, Refused,
                                  Source, SourceOperation)
from regkit.convert.spellings import bare, parsed
from regkit.convert.values import readable, unsettled
from regkit.words.phrases import counted

_BETWEEN = re.compile(r"[\s,;|]+")  # in a text that lists keys
_SKIP = "leave out the keys that it touches with --skip-key"


def settle_keys(source: Source, operations: list[SourceOperation], choices: Choices) -> set[str]:
    """Gives each operation its key as EDN writes it. Returns the keys that are left out of the source."""
    _fill_in(operations, choices)
    texts: dict[Any, str] = {}
    for operation in operations:
        _settle_key(operation, texts, choices)
    first: dict[str, SourceOperation] = {}
    for operation in operations:
        first.setdefault(operation.key, operation)
    several = _several(first, choices)
    if choices.values == "auto":
        _refuse_alike(first)
    skipped = set(_skipped(operations, first, several, choices))
    if skipped:
        _skip(source, operations, skipped)
    return skipped


def _fill_in(operations: list[SourceOperation], choices: Choices) -> None:
    """Gives those without a key the one register that the source has. Raises Refused if there are others."""
    keyed = next((each for each in operations if each.key is not NO_KEY), None)
    for operation in operations:
        if operation.key is NO_KEY:
            if keyed is not None and operation.kind in KNOWN and choices.register is None:
                raise Refused(f"the {operation.kind} has no key, and the operation of line {keyed.line} has "
                              f"{edn.write(keyed.key)[:40]}: say --key NAME if another member is the key, or "
                              "--register NAME if all operations without a key are of one register",
                              operation.line)
            if keyed is not None and operation.kind not in KNOWN:
                raise Refused(f"{operation.kind} names no key, and the operation of line {keyed.line} does: "
                              "it may touch every key, so leave it out of the workload", operation.line)
            operation.key = choices.register or "x"


def _text_of(key: Any, choices: Choices) -> str:
    """A key as EDN writes it."""
    return edn.write(bare(key) if choices.values == "alike" else key)


def _settle_key(operation: SourceOperation, texts: dict[Any, str], choices: Choices) -> None:
    """Texts and whole numbers are looked up, since a source repeats its keys."""
    key = operation.key
    if type(key) is not str and type(key) is not int:
        operation.key = _text_of(key, choices)
        return
    known = texts.get(key)
    if known is None:
        known = texts[key] = _text_of(key, choices)
    operation.key = known


def _several(first: dict[str, SourceOperation], choices: Choices) -> dict[str, set[str]]:
    """By key that lists other keys, as x,y or ["x","y"] do, those. Raises Refused if they aren't skipped."""
    several = {}
    for key in first if choices.values != "exact" else ():
        parts = set(_parts(key))
        if parts and parts <= first.keys():
            several[key] = parts
    if several and not _skips(choices):
        key = next(iter(several))
        raise Refused(f"the key {key[:40]} lists keys that other operations have: an operation on several "
                      f"keys is none of a register, so {_SKIP}, or say --values exact if it is one key",
                      first[key].line)
    return several


def _parts(key: str) -> Iterator[str]:
    """The keys that a key may list, as EDN writes them."""
    value = unsettled(key)
    if type(value) is str:
        whole = parsed(value)
        value = whole if type(whole) is tuple else tuple(filter(None, _BETWEEN.split(value.strip())))
        value = value if len(value) > 1 else ()
    if type(value) in (tuple, list, edn.Set):
        yield from map(edn.write, value)


def _refuse_alike(first: dict[str, SourceOperation]) -> None:
    """Raises Refused if two keys are spelled alike and are of different kinds."""
    seen: dict[str, str] = {}
    for key, operation in first.items():
        other = seen.setdefault(bare(unsettled(key)), key)
        if other != key:
            raise Refused(f"the key {key[:40]} is spelled like {other[:40]}, the key of line "
                          f"{first[other].line}, and of another kind: say --values alike if what is spelled "
                          "alike is one key and one value, or --values exact if it isn't", operation.line)


def _skips(choices: Choices) -> bool:
    return choices.skip_key or choices.cas == "skip-key"


def _skipped(operations: Iterable[SourceOperation], first: dict[str, SourceOperation],
             several: dict[str, set[str]], choices: Choices) -> Iterator[str]:
    """The keys that something touches which is no operation of one register."""
    if not _skips(choices):
        return
    for operation in operations:
        key = operation.key
        strange = operation.kind == OTHER
        is_cas = operation.kind in CHANGES | READ_AND_WRITE
        if strange or key in several or (is_cas and choices.cas == "skip-key"):
            yield key
            yield from several.get(key, ())
        if operation.kind == OTHER:
            within = _within((unsettled(key), operation.value, operation.answer))
            named = {*_parts(key), *(_text_of(value, choices) for value in within)}
            yield from (text for text in first if text in named)


def _within(value: Any) -> Iterator[Any]:
    """A value and all that is in it."""
    yield value
    if type(value) is edn.Tagged:
        yield from _within(value.value)
    elif isinstance(value, (tuple, list)):
        for each in value:
            yield from _within(each)
    elif isinstance(value, dict):
        for pair in value.items():
            yield from _within(pair)


def _skip(source: Source, operations: list[SourceOperation], skipped: set[str]) -> None:
    """Leaves out every operation of some keys, and the crashes that ended such operations."""
    left = sum(operation.key in skipped for operation in operations)
    keys = len({operation.key for operation in operations})
    source.steps = [step for step in source.steps if step.key not in skipped or step.kind == "crash"]
    named: list[str] = sorted(readable(skipped).values())
    names = ", ".join(named[:5]) + (f" and {len(named) - 5} more" if len(named) > 5 else "")
    source.skipped = (f"left out {left:,} of {counted(len(operations), 'operation')}, since something else "
                      f"than reads and writes touches {len(skipped):,} of {counted(keys, 'key')}: {names}")
    source.notes.append(source.skipped)
