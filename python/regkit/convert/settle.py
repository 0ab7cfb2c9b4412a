"""What is the same for every source: reads, writes and cas are taken, their keys and values in one form."""
from functools import partial
from typing import Any, Callable, Optional

from regkit.convert import edn, lists
from regkit.convert.absences import as_act, look_at_locks, refuse_cleared
from regkit.convert.advice import not_taken
from regkit.convert.changes import AS_CAS, as_cas, leave_out_failed, meet_nothing, refuse_repeated
from regkit.convert.keys import settle_keys
from regkit.convert.members import WRITE_ANSWERS
from regkit.convert.model import (ADDITIONS, APPEND, CAS, CHANGES, CONDITIONAL, DELETES, LOCK, READS, UNLOCK,
                                  WRITES, Choices, Refused, Source, SourceOperation, Value)
from regkit.convert.values import ALL_TEXTS, settled, shown

_OPAQUE = frozenset({"object", "error"})  # tags of values that can't be compared by how they are written


def settle(source: Source, choices: Choices) -> None:
    """Settles each operation, and leaves out the keys that `--skip-key` skips."""
    operations = list(source.operations())
    skipped = settle_keys(source, operations, choices)
    read_value = partial(settled, nulls=choices.nulls, numeric_texts=choices.form in ALL_TEXTS,
                         alike=choices.values == "alike")
    refuse_repeated(operations, choices.form, read_value)
    kept = [operation for operation in operations if operation.key not in skipped]
    source.lists = lists.keys_of(kept, read_value)
    added = [operation for operation in kept if operation.kind in ADDITIONS]
    locks = {operation for operation in kept if operation.kind in (LOCK, UNLOCK)}
    for operation in kept:
        is_list = operation.key in source.lists
        _settle_one(operation, partial(lists.raw, nulls=choices.nulls) if is_list else read_value, choices)
    look_at_locks(kept, locks)
    refuse_cleared(kept, locks, choices)
    meet_nothing(added, source, choices)
    leave_out_failed(source)
    lists.fold(source, kept, choices)


def _settle_one(operation: SourceOperation, read_value: Callable[[Any], Any], choices: Choices) -> None:
    _settle_kind(operation, choices)
    _settle_ending(operation)
    operation.tells_old = operation.tells_old and operation.ending == "reply"
    operation.old = read_value(operation.old)
    if operation.kind in AS_CAS:
        as_cas(operation, read_value)
    elif operation.kind in CHANGES:
        as_act(operation, read_value, choices)
    elif operation.kind == CAS:
        _settle_cas(operation, read_value, choices.form)
    elif operation.kind == "read":
        _settle_read(operation, read_value, "value" in choices.ignored)
    else:
        _settle_write(operation, read_value, choices.form)


def _settle_kind(operation: SourceOperation, choices: Choices) -> None:
    if operation.kind in READS:
        operation.kind = "read"
    elif operation.kind in WRITES:
        operation.kind = "write"
    elif operation.kind not in CHANGES | {APPEND, CAS} or choices.cas != "keep" or (
            operation.kind in (LOCK, UNLOCK) and operation.kind not in choices.ops.values()):
        raise Refused(not_taken(operation.kind), operation.line)


def _settle_ending(operation: SourceOperation) -> None:
    if operation.ending != "missed":
        return
    if operation.kind not in CONDITIONAL | DELETES and operation.version is None:
        raise Refused(f"by --outcomes it missed, and it is a {operation.kind}, not a cas: say what the word "
                      "means of all operations, such as WORD=fail or WORD=unknown", operation.end_line)
    operation.ending, operation.missed = "reply", True


def _refuse_opaque(value: Any, line: int) -> None:
    if type(value) is edn.Tagged and value.tag in _OPAQUE:
        raise Refused(f"the value {edn.write(value)[:60]} only names an object of Clojure: let the "
                      "client record the value itself", line)


def _settle_cas(operation: SourceOperation, read_value: Callable[[Any], Value], form: str) -> None:
    """Parts what a cas asks for from what it writes. Its reply has both too, or neither."""
    called = _halves(operation.value)
    if called is None:
        raise Refused(f"the value {edn.write(operation.value)[:60]} of a cas isn't [from to], what it asks "
                      "for and what it writes", operation.line)
    for half in called:
        _refuse_opaque(half, operation.line)
    operation.expected, operation.value = map(read_value, called)
    suits = (operation.old == operation.expected) != operation.unless
    if operation.tells_old and operation.missed == suits:
        raise Refused(f"the cas found {shown(operation.old)[:40]} by old, and by ok it "
                      f"{'missed' if operation.missed else 'took place'}: which of them is right?",
                      operation.end_line)
    if operation.ending != "reply" or operation.missed or operation.answer is None:
        return
    answered = _halves(operation.answer)
    if answered is None or tuple(map(read_value, answered)) != (operation.expected, operation.value):
        name = WRITE_ANSWERS[form]
        raise Refused(f"the reply of a cas has the value {edn.write(operation.answer)[:60]}, which isn't "
                      f"that of its call, at line {operation.line}: say --ok-when {name}=WORD,.. with the "
                      f"words by which the cas took place, or --ignore-member {name} if what a cas answers "
                      "means nothing", operation.end_line)


def _halves(value: Any) -> Optional[tuple[Any, Any]]:
    if type(value) is edn.Tagged and value.tag not in _OPAQUE:
        value = value.value
    return (value[0], value[1]) if type(value) is tuple and len(value) == 2 else None


def _differ_in_version(called: Any, answered: Any) -> bool:
    """Whether both are pairs of which only the first halves differ."""
    one, other = _halves(called), _halves(answered)
    return one is not None and other is not None and edn.write(one[1]) == edn.write(other[1])


def _settle_read(operation: SourceOperation, read_value: Callable[[Any], Value], is_ignored: bool) -> None:
    """A read's value is that of its reply. What its call has in the place of a value is no other one."""
    _refuse_opaque(operation.answer, operation.line)
    asked, operation.value = operation.value, None
    if operation.ending == "reply":
        operation.value = read_value(operation.answer)
    if not is_ignored and read_value(asked) not in (None, operation.value):
        gave = f"gave {edn.write(operation.answer)[:60]}" if operation.ending == "reply" else "gave none"
        raise Refused(f"a read is called with the value {edn.write(asked)[:60]}, and {gave}: if that tells "
                      "the key, let the client call with [key nil] and reply with [key value], or put the "
                      "key into a member of its own (--key NAME); say --ignore-member value if it means "
                      "nothing",
                      operation.line)


def _settle_write(operation: SourceOperation, read_value: Callable[[Any], Value], form: str) -> None:
    """A write's value is that of its call, with which its reply agrees."""
    for value in (operation.value, operation.answer):
        _refuse_opaque(value, operation.line)
    answer = read_value(operation.answer) if operation.ending == "reply" else None
    called, operation.value = operation.value, read_value(operation.value)
    if answer is not None and answer != operation.value:
        name, kind = WRITE_ANSWERS[form], "an append" if operation.kind == APPEND else "a write"
        versioned = form == "jepsen" and _differ_in_version(called, operation.answer)
        raise Refused(f"the reply of {kind} has the value {shown(answer)}, and its call, at line "
                      f"{operation.line}, {shown(operation.value)}: say "
                      f"{'--drop-versions if each value is [version value], ' if versioned else ''}"
                      f"--ok-when {name}=WORD,.. with the words by which it took place, or "
                      f"--ignore-member {name} if what it answers means nothing", operation.end_line)
