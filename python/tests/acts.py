"""A slow judge of histories with all words that `regsearch` takes: by what each operation asks of the value
that it meets, and what it leaves. It tries all orders, and shares nothing with `regkit`."""
import json
from typing import Any, Dict, List, NamedTuple, Optional, Set, Tuple

Value = Optional[int]


class Act(NamedTuple):
    """What an operation asks of the value that it meets, and what it leaves."""

    line: int
    end: Optional[int]  # the line of its reply
    asks: str  # "any", "is" or "not"
    asked: Value
    sets: bool
    left: Value

    def suits(self, value: Value) -> bool:
        return self.asks == "any" or (value == self.asked) == (self.asks == "is")


def act_of(line: int, call: Dict[str, Any], end: Optional[int], reply: Dict[str, Any]) -> Act:
    """By the call, and by the reply if there is one."""
    sets = call["op"] != "read"
    left = call["to"] if call["op"] == "cas" else call.get("value")
    asks, asked = "any", None
    if call["op"] == "cas":
        asks, asked = ("is", call["from"]) if "from" in call else ("not", call["unless"])
    if "ok" in reply and call["op"] == "cas" and not reply["ok"]:
        asks, sets = {"is": "not", "not": "is"}[asks], False
    if "value" in reply and call["op"] == "read":
        asks, asked = "is", reply["value"]
    elif "found" in reply and call["op"] in ("read", "delete", "swap"):
        asks, asked = "not" if reply["found"] else "is", None
    tells_old = call["op"] in ("delete", "swap") or (call["op"] == "cas" and call.get("old") is True)
    if "old" in reply and tells_old:
        asks, asked = "is", reply["old"]
    return Act(line, end, asks, asked, sets, left)


def registers_of(history: str) -> Dict[str, List[Act]]:
    calls: Dict[int, Tuple[int, Dict[str, Any]]] = {}
    found: Dict[str, List[Act]] = {}
    for line, said in enumerate(history.splitlines(), 1):
        event = json.loads(said or "{\"event\":\"none\",\"process\":-1}")
        if event["event"] == "call":
            calls[event["process"]] = line, event
        elif event["process"] in calls:
            begun, call = calls.pop(event["process"])
            if event["event"] == "crash":
                calls[-line] = begun, call
            elif event["event"] == "reply":
                found.setdefault(call["register"], []).append(act_of(begun, call, line, event))
    for line, call in calls.values():
        found.setdefault(call["register"], []).append(act_of(line, call, None, {}))
    return found


def has_order(acts: List[Act]) -> bool:
    """Whether some order gives each reply. What has none may be left out."""
    tried: Set[Tuple[Value, int]] = set()
    needed = sum(1 << at for at, each in enumerate(acts) if each.end is not None)

    def rest(value: Value, done: int) -> bool:
        if not needed & ~done:
            return True
        if (value, done) in tried:
            return False
        tried.add((value, done))
        last = min(each.end for at, each in enumerate(acts) if each.end is not None and not done >> at & 1)
        return any(rest(each.left if each.sets else value, done | 1 << at)
                   for at, each in enumerate(acts)
                   if not done >> at & 1 and each.line < last and each.suits(value))

    return rest(None, 0)


def is_atomic(history: str) -> bool:
    return all(map(has_order, registers_of(history).values()))
