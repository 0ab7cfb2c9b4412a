"""What takes a value away, or only asks whether there is one, by --ops:

    del=count-delete        deletes, and is answered how many values there were, 1 or 0, or nothing
    getdel=fetch-delete     deletes, and is answered the old value, or null
    delete=delete           deletes, and is answered nothing
    unset=delete-if         deletes this value alone: a cas from it to null
    setxx=replace           writes only where there is a value: a cas unless there is none
    exists=exists           is answered whether there is a value: true or false, 1 or 0
    acquire=lock            takes a lock if nobody has it: a cas from null to its owner
    release=unlock          gives it back: a cas from its owner to null

The owner of a lock is the value of its calls. Where no call has one, a lock is only held or free, as Knossos'
mutex is, and whoever gives it back needn't have taken it.
"""
import shlex
from typing import AbstractSet, Any, Callable, Iterable, Optional

from regkit.convert.model import (CAS, COUNT_DELETE, DELETE, DELETE_IF, DELETES, EXISTS, FETCH_DELETE, LOCK,
                                  REPLACE, UNLOCK, Choices, Refused, SourceOperation, Value, folded)
from regkit.convert.spellings import spelled
from regkit.convert.values import initial_value, shown

HELD = ":held"  # the value of a lock that somebody has, where owners aren't known
_TRUTHS = {"1": True, "true": True, "0": False, "false": False}
_COUNTS = {"1": True, "0": False}

Reader = Callable[[object], Value]


def as_act(operation: SourceOperation, read_value: Reader, choices: Choices) -> None:
    """Makes a read, a delete or a cas of an operation. Raises Refused if its answer isn't understood."""
    kind, asked = operation.kind, read_value(operation.value)
    answer = operation.answer if operation.ending == "reply" else None
    if kind in DELETES or kind == EXISTS:
        if asked is not None and spelled(operation.value).strip():
            counts = (f"WORD={COUNT_DELETE} if that is how many values there were, "
                      if folded(spelled(operation.value)) in _COUNTS else "")
            raise Refused(f"the call of this {kind} has the value {shown(asked)[:40]}: say --ops {counts}"
                          f"WORD={DELETE_IF} if it deletes this value alone, or --ignore-member for what "
                          "means nothing", operation.line)
        operation.value = None
        (_settle_exists if kind == EXISTS else _settle_delete)(operation, answer, read_value, choices)
        return
    if kind == DELETE_IF and operation.version is not None:
        operation.kind, operation.value, operation.clears = CAS, None, True
        return
    if asked is None and kind not in (LOCK, UNLOCK):
        raise Refused(f"a {kind} of null: its call has the value that it "
                      f"{'deletes' if kind == DELETE_IF else 'writes'}", operation.line)
    if answer is not None and read_value(answer) not in (None, asked):
        raise Refused(f"the reply of a {kind} has the value {shown(read_value(answer))[:40]}: did it take "
                      "place or not? Say --ok-when value=WORD,.. with the words by which it did, and "
                      "--outcomes WORD=missed for those by which it didn't", operation.end_line)
    value = HELD if asked is None else asked
    operation.kind, operation.expected, operation.value = CAS, None, value
    if kind in (DELETE_IF, UNLOCK):
        operation.expected, operation.value, operation.clears = value, None, True
    operation.unless = kind == REPLACE


def _settle_exists(operation: SourceOperation, answer: Any, _: Reader, __: Choices) -> None:
    operation.kind = "read"
    if operation.ending == "reply":
        operation.found = _TRUTHS.get(folded(spelled(answer)))
        if operation.found is None:
            raise Refused(f"an exists was answered {spelled(answer)[:40]}, and true or false is expected, or "
                          "1 or 0", operation.end_line)


def _settle_delete(operation: SourceOperation, answer: Any, read_value: Reader, choices: Choices) -> None:
    kind, operation.kind = operation.kind, DELETE
    if operation.missed:  # so it found no value
        operation.missed, operation.found = False, False
    elif kind == FETCH_DELETE and operation.ending == "reply":
        operation.tells_old, operation.old = True, read_value(answer)
    elif answer is not None and spelled(answer) != "":
        operation.found = _found_by(kind, answer, choices, operation.end_line)


def _found_by(kind: str, answer: Any, choices: Choices, line: Optional[int]) -> bool:
    """Whether a delete found a value, by its answer. Raises Refused if that isn't clear."""
    word = folded(spelled(answer))
    found = _COUNTS.get(word) if kind == COUNT_DELETE else choices.answers.get(word)
    if found is None:
        raise Refused(f"a {kind} was answered {spelled(answer)[:40]}: say --ops WORD={COUNT_DELETE} if it is "
                      f"how many values there were, 1 or 0, --ops WORD={FETCH_DELETE} if it is the value "
                      "that was there, --ok-when value=WORD,.. with the words by which it took place, "
                      "--outcomes WORD=missed for those by which there was no value, or --ignore-member "
                      "value if it means nothing", line)
    return found


def look_at_locks(operations: Iterable[SourceOperation], locks: AbstractSet[SourceOperation]) -> None:
    """Raises Refused if something has a value at a key whose locks have no owners."""
    held = {each.key: each for each in locks if HELD in each.values}
    for each in operations:
        lock = held.get(each.key)
        if lock is not None and not {*each.values} <= {None, HELD}:
            raise Refused(f"the lock of line {lock.line} has no owner, and this {each.kind} of "
                          f"{shown(each.key)} has a value: give each lock its owner as a value, or none",
                          each.line)


def refuse_cleared(operations: Iterable[SourceOperation], locks: AbstractSet[SourceOperation],
                   choices: Choices) -> None:
    """Raises Refused if a key starts with a value by --initial, and something leaves it without one.

    That value may be what reads give where there is none, and then it is no value.
    """
    if choices.initial is None or initial_value(choices.initial, choices.form) is None:
        return
    for each in operations:
        if each.kind == DELETE or each.clears or each in locks:
            initial = shlex.quote(choices.initial)
            raise Refused(f"by --initial {initial} {shown(each.key)} starts with a value, and "
                          f"{'this lock asks for none' if each in locks else 'this deletes it'}: say "
                          f"--null={initial} if that stands for none, or begin the source with a put of it",
                          each.line)
