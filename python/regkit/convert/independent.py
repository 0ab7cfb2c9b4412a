"""Keys within values, as jepsen.independent puts them: [key value]."""
from decimal import Decimal
from typing import Any, Optional

from regkit.convert import edn
from regkit.convert.model import CAS, KEY_NAMES, KNOWN, NO_KEY, READS, Choices, Refused, SourceOperation

Pair = tuple[Any, Any]
_KEYS = frozenset(":" + name for name in KEY_NAMES)
_VALUES = frozenset({":val", ":value", ":v"})


def pair_of(value: Any) -> Optional[Pair]:
    """A key with its value: a vector of two, tagged or not, or a map such as {:key 1, :value 2}."""
    if type(value) is edn.Tagged:
        value = value.value
    if type(value) is tuple:
        return (value[0], value[1]) if len(value) == 2 else None
    if type(value) is edn.Map and len(value) == 2:
        for key, other in (tuple(value), tuple(value)[::-1]):
            if key in _KEYS and other in _VALUES:
                return value[key], value[other]
    return None


def nothing_for(value: Any) -> Any:
    """The answer of a read that found nothing, of the form of its call's value."""
    pair = pair_of(value)
    return None if pair is None else (pair[0], None)


def _key_alone(operation: SourceOperation) -> Optional[Pair]:
    """The key with which alone a read is called: 7, or {:key 7}. Its reply has the key and the value."""
    value = operation.value
    if operation.kind not in READS or value is None or pair_of(value) is not None:
        return None
    if type(value) is edn.Map and len(value) == 1 and _KEYS & value.keys():
        value = next(iter(value.values()))
    answered = pair_of(operation.answer)
    if operation.ending == "reply" and (answered is None or edn.write(answered[0]) != edn.write(value)):
        return None
    return value, None


def are_independent(operations: list[SourceOperation], choices: Choices) -> bool:
    """Whether the values are keys with values: if all calls' are, or if any read's is a key with nil.

    A read may also be called with its key alone. A plain read is called with nil. A plain cas is called with
    a pair too, of the old value and the new; its second half is no pair.
    """
    if choices.keys != "auto":
        return choices.keys == "independent"
    pairs: list[SourceOperation] = []
    others: list[SourceOperation] = []
    for call in operations:
        if call.key is NO_KEY and call.kind in KNOWN:
            pair = pair_of(call.value)
            if pair is None or (call.kind == CAS and pair_of(pair[1]) is None):
                others += [] if _key_alone(call) else [call]
            elif call.kind in READS and pair[1] is None:
                return True
            else:
                pairs.append(call)
    _refuse_either(pairs, others)
    return bool(pairs) and not others


def _refuse_either(pairs: list[SourceOperation], others: list[SourceOperation]) -> None:
    """Raises Refused if pairs may be keys with values, or values that are pairs."""
    swaps = [each for each in pairs if each.kind == CAS]
    swap = next((each for each in swaps if pair_of((pair_of(each.value) or (0, 0))[0]) is not None), None)
    if swap is not None and not others:
        raise Refused(f"the value {edn.write(swap.value)[:60]} may be a key with [from to], or from and "
                      "to: say --keys independent or --keys none", swap.line)
    if not all(each.kind in READS and each.value is None for each in others):
        return
    keys = {edn.write(pair[0]) for pair in (pair_of(each.value) for each in pairs) if pair}
    reads = [each for each in others if pair_of(each.answer) and each.ending == "reply"]
    finds_nothing = any(nothing_for(each.answer) == pair_of(each.answer) for each in reads)
    if reads and (len(keys) > 1 or swaps or finds_nothing):
        read = reads[0]
        raise Refused(f"the value {edn.write(read.answer)[:60]} may be a key with its value, but the read is "
                      "called with nil: let the client call it with [key nil], or say --keys none if there "
                      "are no keys",
                      read.line)


def part(operation: SourceOperation) -> None:
    """Parts a key from the values of an operation. Raises Refused."""
    called = pair_of(operation.value) or _key_alone(operation)
    if called is None:
        raise Refused(f"the value {edn.write(operation.value)} is no key with its value, as others are; if "
                      "none is meant to be, say --keys none", operation.line)
    operation.key, operation.value = called
    if operation.ending != "reply":
        return
    answered = pair_of(operation.answer)
    if answered is None or (answered[0] is not called[0] and edn.write(answered[0]) != edn.write(called[0])):
        none = "" if operation.kind in READS or operation.answer is not None else (
            ", or say --keys none if there are no keys")
        raise Refused(f"the reply's value {edn.write(operation.answer)} doesn't have the key "
                      f"{edn.write(called[0])} of the call at line {operation.line}: let the client reply "
                      f"with the key and the value{none}", operation.end_line)
    operation.answer = answered[1]


def refuse_another(asked: Any, told: Any, call_line: int, line: int) -> None:
    """Raises Refused if a failure or a crash tells another key or number than its call.

    It may say any word in the place of a value, such as :timed-out.
    """
    if _contradicts(asked, told, False):
        raise Refused(f"the value is {edn.write(told)[:60]}, and the call at line {call_line} has "
                      f"{edn.write(asked)[:60]}: is a line of the log missing? Say --ignore-member value if "
                      "what stands there means nothing", line)


def _contradicts(asked: Any, told: Any, is_key: bool) -> bool:
    if told is None:
        return False
    one, other = (each.value if type(each) is edn.Tagged else each for each in (asked, told))
    if type(one) is tuple and type(other) is tuple and len(one) == len(other):
        return any(_contradicts(*halves, place == 0) for place, halves in enumerate(zip(one, other)))
    differ = edn.write(asked) != edn.write(told)
    return differ and (type(told) in (int, Decimal) or (is_key and type(asked) is type(told)))
