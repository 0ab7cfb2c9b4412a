"""Transactions of one operation, as Elle's rw-register and list-append have them: [[:w 3 1]]."""
from typing import Any, Iterable, Optional

from regkit.convert import edn
from regkit.convert.model import NO_KEY, Refused, SourceOperation

_FUNCTIONS = frozenset({"r", "w", "read", "write", "append", "cas"})


def refuse_appends(operations: Iterable[SourceOperation]) -> None:
    """Raises Refused if any transaction of several operations appends to a list: no option takes it apart."""
    for operation in operations:
        parts = _parts(operation.value) if operation.kind == "txn" else []
        if len(parts) > 1 and "append" in map(_function, parts):
            raise Refused(f"a transaction of {len(parts)} operations appends to a list, and registers have "
                          "single operations, so no option converts it: let each transaction have one "
                          "operation (:max-txn-length 1), or check such histories with Elle, as in "
                          "`elle-cli --model list-append history.edn`", operation.line)


def refuse_transactions(operation: SourceOperation) -> None:
    """Raises Refused for a read or a write whose value is a transaction."""
    for value, line in (operation.value, operation.line), (operation.answer, operation.end_line):
        parts = _parts(value)
        if parts and all(_function(part) in _FUNCTIONS for part in parts):
            raise Refused(f"the value {edn.write(value)[:60]} of a {operation.kind} looks like a "
                          "transaction, which may touch several keys: let :f be :txn if each has one "
                          "operation, check the history with Elle, or say --values exact if it is a "
                          "value", line)


def take_apart(operation: SourceOperation) -> None:
    """Takes a transaction of one operation for that operation. Raises Refused for any other."""
    if operation.key is not NO_KEY:
        raise Refused(f"a transaction names the key in its value, {edn.write(operation.value)[:60]}, and "
                      f"there is a member for the key too, which has {edn.write(operation.key)[:60]}: which "
                      "of them is it? --ignore-member leaves out the member", operation.line)
    function, key, value = _single(operation.value, operation.line)
    if operation.ending == "reply":
        line = operation.end_line or operation.line
        answered_function, answered_key, answer = _single(operation.answer, line)
        if answered_function != function or edn.write(answered_key) != edn.write(key):
            raise Refused(f"the reply's transaction isn't that of the call at line {operation.line}: let the "
                          "client reply with the transaction of its call, its read filled in", line)
        operation.answer = answer
    operation.kind, operation.key, operation.value = function, key, value


def _parts(value: Any) -> list[Any]:
    return list(value) if type(value) is tuple else []


def _function(part: Any) -> Optional[str]:
    """What a part of a transaction does, if it is one: a function, a key and a value."""
    if type(part) is tuple and len(part) == 3 and isinstance(part[0], str):
        return part[0].lstrip(":")
    return None


def _single(value: Any, line: int) -> list[Any]:
    parts = _parts(value)
    if len(parts) == 1 and _function(parts[0]) is not None:
        return [_function(parts[0]), *parts[0][1:]]
    keyed = _parts(parts[1]) if len(parts) == 2 and _function(parts[0]) is None else []
    if len(keyed) == 1 and _function(keyed[0]) is not None:  # under a key, as jepsen.independent puts it
        function, key, given = keyed[0]
        return [function.lstrip(":"), (parts[0], key), given]
    parts = keyed if keyed and all(map(_function, keyed)) else parts
    if len(parts) > 1:
        raise Refused(f"a transaction of {len(parts)} operations, and registers have single reads and "
                      "writes: let each transaction have one operation (:max-txn-length 1, "
                      "docs/recipes.md), or check the history with Elle", line)
    raise Refused(f"{edn.write(value)[:60]} is no transaction of one operation, such as [[:w 3 1]]", line)
