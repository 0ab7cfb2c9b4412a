"""Values with their versions, as Jepsen's test of etcd records them: [version value].

    {:process 0, :type :invoke, :f :write, :value [7 [nil 3]]}
    {:process 0, :type :ok, :f :write, :value [7 [12 3]]}
    {:process 1, :type :invoke, :f :cas, :value [7 [nil [3 4]]]}

The store counts the versions, and no call asks for one. So registers of the values say all that the calls ask
for, and with --drop-versions the versions are left out.
"""
from typing import Any, Iterable

from regkit.convert import edn
from regkit.convert.independent import pair_of
from regkit.convert.model import CAS, KNOWN, NO_KEY, READS, Choices, Refused, SourceOperation

NOTE = "each value is [version value], and the versions are left out: they aren't checked"


def have_keys(operations: Iterable[SourceOperation], choices: Choices) -> bool:
    """Whether the values are [key [version value]], by all calls that have a value."""
    if choices.keys != "auto":
        return choices.keys == "independent"
    calls = [each for each in operations
             if each.key is NO_KEY and each.kind in KNOWN and each.value is not None]
    found = [(each, pair_of(each.value)) for each in calls]
    return bool(calls) and all(pair is not None and _is_versioned(each, pair[1]) for each, pair in found)


def _is_versioned(operation: SourceOperation, value: Any) -> bool:
    pair = pair_of(value)
    return pair is not None and (operation.kind != CAS or pair_of(pair[1]) is not None)


def drop_versions(operation: SourceOperation) -> None:
    """Leaves the version out of an operation's values. Raises Refused for a value without one."""
    if operation.kind not in KNOWN:
        return
    called, operation.value = operation.value, _without(operation.value, operation, operation.line)
    if called is not None and (pair_of(called) or called)[0] is not None:
        raise Refused(f"the value {edn.write(called)[:60]} of a {operation.kind} asks for a version, and "
                      "--drop-versions leaves versions out: record it as a cas from this version to the "
                      "next, or let the client call with nil there", operation.line)
    if operation.ending == "reply":
        operation.answer = _without(operation.answer, operation, operation.end_line or operation.line)


def _without(value: Any, operation: SourceOperation, line: int) -> Any:
    if value is None and operation.kind in READS:
        return None
    pair = pair_of(value)
    if pair is None or not _is_versioned(operation, value):
        meant = "[version [from to]]" if operation.kind == CAS else "[version value]"
        raise Refused(f"the value {edn.write(value)[:60]} of a {operation.kind} isn't {meant}, as "
                      "--drop-versions says", line)
    return pair[1]


def refuse_versions(operations: Iterable[SourceOperation], choices: Choices) -> None:
    """Raises Refused if each cas may have its two values after a version: [nil [from to]]."""
    swaps = [each for each in operations if each.kind == CAS]
    values = [pair_of(each.value) for each in swaps]
    if choices.cas == "keep" and choices.values == "auto" and swaps and all(
            value is not None and value[0] is None and pair_of(value[1]) is not None for value in values):
        raise Refused(f"the value {edn.write(swaps[0].value)[:60]} of a cas may be [version [from to]]: say "
                      "--drop-versions if it is, or --values exact if it asks for nil", swaps[0].line)
