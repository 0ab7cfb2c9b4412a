"""The inputs and outputs of Porcupine's model of etcd, a register with cas, as encoding/json writes them.

    {"ClientId":0,"Input":{"Op":2,"Arg1":1,"Arg2":2},"Call":10,"Return":20,
     "Output":{"Ok":true,"Exists":false,"Value":0,"Unknown":false}}

Op is 0 for a read, 1 for a write of Arg1 and 2 for a cas from Arg1 to Arg2. Ok says whether a cas took place,
and Exists whether a read found a value. Unknown says that nobody knows what the operation did.
"""
from typing import Any, Optional

from regkit.convert.members import Members
from regkit.convert.model import CAS, KNOWN, READS, Refused, SourceOperation
from regkit.convert.spellings import spelled

_OPS = {"0": "read", "1": "write", "2": CAS}
_TOLD = ("ok", "exists", "unknown")


def asked(word: str, given: Members, line: int) -> tuple[str, Any]:
    """What an input asks for: its operation, and what it writes."""
    kind = _OPS.get(word, word)
    if kind == CAS:
        if "arg1" not in given or "arg2" not in given:
            raise Refused("the input of a cas has Arg1 and Arg2", line)
        return kind, (given["arg1"], given["arg2"])
    if kind in KNOWN and given.get("arg2") not in (None, 0):
        raise Refused(f"Arg2 is {spelled(given['arg2'])[:40]}, and only a cas, which is Op 2, has one: say "
                      "which operation each Op is, as in --ops 1=cas", line)
    if kind in READS and given.get("arg1") not in (None, 0):
        raise Refused(f"Arg1 is {spelled(given['arg1'])[:40]}, and a read, which is Op 0, has none: say "
                      "which operation each Op is, as in --ops 0=write,1=read", line)
    return kind, None if kind in READS else given.get("arg1")


def ended(operation: SourceOperation, told: Members, said: dict[bool, int],
          line: int) -> tuple[Optional[str], Members]:
    """How an operation ended, and what its output says of values.

    The model gives Ok to a cas alone, so that Go writes false for the others. That is taken for nothing only
    in a whole output of the model, and if no read or write has true, since it may say that the operation
    failed. `said` keeps the lines where reads and writes have either.
    """
    _refuse_others(told, line)
    if told.get("unknown"):
        return None, told
    if told.get("exists") and operation.kind not in READS:
        raise Refused(f"Exists is true, and only a read has found a value: this is a {operation.kind}", line)
    if operation.kind == CAS:
        return "reply", told
    _refuse_ok(operation.kind, told, said, line)
    return "reply", _found(told, line) if operation.kind in READS else told


def _refuse_others(told: Members, line: int) -> None:
    """Raises Refused for a member that isn't true or false, and has to be."""
    for name in _TOLD:
        if name in told and type(told[name]) is not bool:
            raise Refused(f"{name.capitalize()} is {spelled(told[name])[:40]}, and true or false is "
                          "expected", line)


def _refuse_ok(kind: str, told: Members, said: dict[bool, int], line: int) -> None:
    """Raises Refused if Ok may say that a read or a write failed."""
    if "ok" in told:
        said.setdefault(told["ok"], line)
    if told.get("ok") is False and not all(name in told for name in _TOLD) or len(said) == 2:
        either = "false" if len(said) < 2 else f"true at line {said[True]} and false at line {said[False]}"
        raise Refused(f"Ok is {either}, and this is a {kind}: say --ok-when Ok=true if it took place only "
                      "then", line)


def _found(told: Members, line: int) -> Members:
    """The value that a read found, or null."""
    if "exists" not in told or (told["exists"] and "value" not in told):
        raise Refused("the output of a read has Exists, true or false, and Value", line)
    if not told["exists"] and told.get("value") not in (None, 0):
        raise Refused(f"Exists is false, and Value is {spelled(told['value'])[:40]}: did the read find it?",
                      line)
    return {"value": told["value"] if told["exists"] else None}
