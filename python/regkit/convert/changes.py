"""Operations that read and write at once, as the cas that they are, by --ops:

    setnx=create            writes a value only where there is none: a cas from null to that value
    getset=swap             writes a value and is answered the old one: a cas from that to the new one
    incr=add                adds what is asked, or 1, and is answered the new value
    getincr=fetch-add       the same, answered the old value
    decr=subtract           takes away what is asked, or 1, and is answered the new value
    getdecr=fetch-subtract  the same, answered the old value

The reply of a swap or of an addition tells both values of its cas. Without a reply, a swap is a write whose
outcome is unknown, since nobody saw the old value; an addition then has no value that could be named. To find
out which additions make up what is read is NP-complete if they differ, so none is guessed.
"""
from typing import Callable, Iterable, Optional

from regkit.base.limits import GREATEST_VALUE, LEAST_VALUE
from regkit.convert.model import (ADD, ADDITIONS, CAS, CREATE, DELETE, FETCH_ADD, FETCH_SUBTRACT, SUBTRACT,
                                  SWAP, Choices, Refused, Source, SourceOperation, Value)
from regkit.convert.values import initial_value, shown
from regkit.words.phrases import counted

AS_CAS = ADDITIONS | {CREATE, SWAP}
NO_EFFECT = "no effect"  # the kind of an addition that failed, which is left out
_REPEATING = frozenset({"jepsen", "porcupine", "jsonl"})  # forms in which a reply may repeat its call

_SIGNS = {ADD: 1, FETCH_ADD: 1, SUBTRACT: -1, FETCH_SUBTRACT: -1}
_RECORD = ("whether additions that differ make up what is read is an NP-complete question. Record the value "
           "that the store answers (Redis's INCR, RETURNING in SQL, UPDATED_NEW in DynamoDB), or let the client add "
           "by a read and a cas, or leave out its key with --ops WORD=other --skip-key")

Reader = Callable[[object], Value]


def refuse_repeated(operations: Iterable[SourceOperation], form: str, read_value: Reader) -> None:
    """Raises Refused if each reply of such operations has the value of its call. It may be no answer then."""
    if form not in _REPEATING:
        return
    for kind in sorted(ADDITIONS | {SWAP}):
        said = [each for each in operations if each.kind == kind and each.ending == "reply"]
        if said and all(each.value is not None and read_value(each.value) == read_value(each.answer)
                        for each in said):
            raise Refused(f"each reply of a {kind} has the value of its call, "
                          f"{shown(read_value(said[0].answer))} "
                          "here, so it may only repeat that: let the reply have the value that the store "
                          "answered, and the call of an addition of 1 none"
                          f"{'' if kind == SWAP else '. Without an answer, ' + _RECORD}", said[0].end_line)


def as_cas(operation: SourceOperation, read_value: Reader) -> None:
    """Makes a cas of an operation whose outcome is known, and a write of a swap whose outcome isn't."""
    kind, asked = operation.kind, read_value(operation.value)
    answer = read_value(operation.answer) if operation.ending == "reply" else None
    if kind == CREATE:
        operation.kind, operation.expected, operation.value = CAS, None, asked
        _refuse_answer(operation, answer)
    elif kind == SWAP and operation.ending != "reply":
        operation.kind, operation.value = "write", asked
    elif kind == SWAP and operation.found is not None and not operation.tells_old:
        operation.value = asked
    elif kind == SWAP:
        operation.kind, operation.value = CAS, asked
        operation.expected = operation.old if operation.tells_old else answer
        operation.found, operation.old, operation.tells_old = None, None, False
    elif operation.ending == "fail":
        operation.kind = NO_EFFECT
    elif operation.ending != "reply":
        raise Refused(f"an addition of unknown outcome: nobody saw the value that it wrote, and {_RECORD}",
                      operation.line)
    else:
        if answer is None:
            raise Refused(f"an addition was answered no value, and {_RECORD}", operation.end_line)
        by = _SIGNS[kind] * _number(1 if asked is None else asked, "adds", operation.line)
        found = _number(answer, "was answered", operation.end_line)
        if not by:
            raise Refused("an addition adds 0: let its call have what it adds, or no value if that is 1",
                          operation.line)
        old = found - by if kind in (ADD, SUBTRACT) else found
        operation.kind = CAS
        operation.expected = _in_range(old, operation.end_line)
        operation.value = _in_range(old + by, operation.end_line)


def meet_nothing(added: list[SourceOperation], source: Source, choices: Choices) -> None:
    """By --initial null a key without a value counts as 0: so an addition to 0 met none, if nothing made a 0.

    `added` are the operations that were additions. Raises Refused if it can't be told what they met, or if a
    read found no value where registers start with a number.
    """
    keys = {each.key for each in added}
    if choices.initial is not None and initial_value(choices.initial, choices.form) is not None:
        _refuse_nothing((each for each in source.operations() if each.key in keys), choices)
        return
    deleted = {each.key for each in source.operations() if each.kind == DELETE or each.clears}
    empty = _perhaps_empty(set(added), source) | deleted
    zeros = {each.key: each for each in source.operations() if each.key in keys and each.kind != "read"
             and each.value == 0 and each.ending != "fail" and not each.missed}
    for each in added:
        if each.kind == CAS and each.expected == 0 and each.key in empty:
            _refuse_unclear(each, zeros.get(each.key), each.key in deleted, choices)
            each.expected = None


def _perhaps_empty(additions: set[SourceOperation], source: Source) -> set[str]:
    """The keys to which something may have been added before a value was put there."""
    put: set[str] = set()
    empty: set[str] = set()
    for each, is_call in source.moments():
        if each in additions:
            empty |= {each.key} - put
        elif not is_call and each.kind in ("write", CAS) and each.ending == "reply" and not each.missed:
            put.add(each.key)
    return empty


def _refuse_unclear(addition: SourceOperation, zero: Optional[SourceOperation], is_deleted: bool,
                    choices: Choices) -> None:
    """Raises Refused for an addition to 0, unless no value is said to count as 0, and nothing made a 0."""
    key = shown(addition.key)
    if choices.initial is None:
        raise Refused(f"an addition met 0, and nothing had put a value to {key}: say --initial 0 if it "
                      "starts with 0, or --initial null if it starts without a value, which counts as 0",
                      addition.end_line)
    if zero is not None:
        advice = (f"let the run put 0 to {key} in place of each delete, or never 0, or leave out such keys "
                  "with --ops WORD=other --skip-key" if is_deleted
                  else f"begin the run with a put of 0 to {key}, before any addition")
        raise Refused("an addition met 0, which may have been no value or the 0 of line "
                      f"{zero.line}: {advice}", addition.end_line)


def _refuse_nothing(operations: Iterable[SourceOperation], choices: Choices) -> None:
    for each in operations:
        if (each.kind, each.ending, each.value) == ("read", "reply", None) and not each.found:
            raise Refused(f"a read found no value, and by --initial {choices.initial} {shown(each.key)} "
                          "starts with one: say --initial null if it starts without a value, which counts as 0 for "
                          "an addition", each.end_line)


def leave_out_failed(source: Source) -> None:
    """Leaves out the additions that failed: they wrote nothing and saw nothing."""
    failed = sum(step.kind == NO_EFFECT for step in source.operations())
    if failed:
        source.steps = [step for step in source.steps if step.kind != NO_EFFECT]
        source.notes.append(f"left out {counted(failed, 'addition')} that failed, since they had no effect")


def _refuse_answer(operation: SourceOperation, answer: Value) -> None:
    """What the reply of a create says is nothing, or the value that it wrote."""
    if answer is not None and answer != operation.value:
        raise Refused(f"the reply of a create has the value {shown(answer)}, and its call, at line "
                      f"{operation.line}, {shown(operation.value)}: did it take place or not? Say --ok-when "
                      "value=WORD,.. with the words by which it did, and --outcomes WORD=missed for those by "
                      "which there was a value", operation.end_line)


def _number(value: Value, what: str, line: Optional[int]) -> int:
    if type(value) is not int:
        raise Refused(f"an addition {what} {shown(value)}, and a whole number is expected", line)
    return value


def _in_range(value: int, line: Optional[int]) -> int:
    if not LEAST_VALUE <= value <= GREATEST_VALUE:
        raise Refused(f"by its reply an addition has the value {value}, which doesn't fit into 64 bits", line)
    return value
