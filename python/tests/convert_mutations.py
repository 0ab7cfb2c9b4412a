"""One part of a source changed that no history has: for tests of what a conversion passes over.

A source is taken apart into records: events, operations, or rows of a table. `_places` says of each record on
which members a verdict may depend. Any other one may be changed, left out or added, in each map of a record.
"""
import csv
import io
import json
import random
import re
from typing import Any, Callable, Dict, Iterator, List, NamedTuple, Set, Tuple

from regkit.convert import edn

Record = Dict[str, Any]
_NAMES = ["value", "Value", "VALUE", "key", "Key", "k", "register", "from", "To", "ok", "Ok", "OK", "error",
          "Error", "Err", "exception", "op", "time", "index", "node", "final?", "client", "version", "status",
          "Arg1", "arg2", "exists", "output", "asked", "table", "Revision", "clientid"]
_VALUES: List[Any] = [None, 0, 1, 2, 77, -1, "", "a", "b", "1", "ok", "fail", "timeout", True, False, 1.5,
                      [1, 2], ["a", None], ["a", 1], [["r", 1, None]], {"k": 1}, {"key": "a", "value": 2}]


class Source(NamedTuple):
    """The records of a source, and how they are written again."""

    records: List[Record]
    write: Callable[[List[Record]], str]


def taken_apart(text: str, name: str) -> Source:
    """The records of a source, by the name of its form."""
    if name in ("jepsen's history.txt", "jepsen's console"):
        return _lines(text)
    if name in ("jepsen's EDN", "jepsen's etcd", "porcupine's log"):
        return _edn(text)
    return _table(text) if name.startswith("csv") else _json(text)


def _json(text: str) -> Source:
    is_array = text.lstrip()[0] == "["
    rows = json.loads(text) if is_array else [json.loads(line) for line in text.splitlines()]
    return Source(rows, lambda rows: json.dumps(rows) if is_array else "\n".join(map(json.dumps, rows)))


def _table(text: str) -> Source:
    delimiter = next(each for each in ";\t," if each in text.splitlines()[0])
    header, *rows = csv.reader(io.StringIO(text), delimiter=delimiter)

    def write(rows: List[Record]) -> str:
        out = io.StringIO()
        names = list(dict.fromkeys(name for row in rows for name in row))
        writer = csv.writer(out, delimiter=delimiter, lineterminator="\n")
        writer.writerow(names)
        writer.writerows([_cell(row.get(name)) for name in names] for row in rows)
        return out.getvalue()

    return Source([dict(zip(header, row)) for row in rows], write)


def _cell(value: Any) -> str:
    return "" if value is None else value if isinstance(value, str) else json.dumps(value)


def _edn(text: str) -> Source:
    """Events of EDN by names without colons. The nemesis's are left out."""
    events = [event for _, event in edn.values(text.splitlines(keepends=True))]
    rows = [{name[1:]: member for name, member in event.items()}
            for event in events if event[":process"] != ":nemesis"]
    return Source(rows, lambda rows: "\n".join(
        f"{{{' '.join(f':{name} {_shown(member)}' for name, member in row.items())}}}" for row in rows))


def _shown(value: Any) -> str:
    """A value in EDN. A list of _VALUES is a vector there, and a name in a map or a list a keyword."""
    if type(value) is list:
        return f"[{' '.join(map(_shown, value))}]"
    if type(value) is dict:
        return f"{{{' '.join(f':{name} {_shown(member)}' for name, member in value.items())}}}"
    if type(value) is str and value in ("a", "b", "r", "ok", "fail"):
        return f":{value}"
    return str(value) if type(value) is float else edn.write(value)


_LINE = re.compile(r"(.*?)(\d+)(\s+):(\w+)\s+:(\w+)\s+(\[.*\]|nil)(?:\s+(:.*))?")


def _lines(text: str) -> Source:
    """Lines for people, with a value and perhaps an error."""
    rows: List[Record] = []
    for found in filter(None, map(_LINE.fullmatch, text.splitlines())):
        value = next(iter(edn.values([found[6]])))[1]
        rows.append({"before": found[1], "process": found[2], "gap": found[3], "value": value,
                     "type": edn.Keyword(":" + found[4]), "f": edn.Keyword(":" + found[5])})
        rows[-1].update({"error": edn.Symbol(found[7])} if found[7] else {})
    return Source(rows, lambda rows: "\n".join(row["before"] + row["gap"].join(
        [row["process"], *(_shown(row.get(name)) for name in ("type", "f", "value", "error")
                           if name in row or name == "value")]) for row in rows))


# ---- what a verdict may depend on


def _of_jepsen(record: Record, _: str) -> Set[str]:
    kind, function = record["type"].lstrip(":"), record["f"].lstrip(":")
    used = {"process", "type", "f", "before", "gap"} | ({"error", "exception"} if kind == "fail" else set())
    is_read = function in ("read", "get")
    if function in ADDITIONS:
        return used | ({"value"} if kind in ("ok", "invoke") else set())
    return used | ({"value"} if kind == ("ok" if is_read else "invoke") else set()) | (
        {"key", "k", "register"} if kind == "invoke" and "key" in record else set())


ADDITIONS = ("incr", "decr", "getincr", "getdecr")  # words for operations that add and are answered


def _of_operation(record: Record, _: str) -> Set[str]:
    op = record.get("op", record.get("what", "")).lower()
    used = {"process", "start", "end", "register", "op", "outcome", "code", "who", "what", "key", "status"}
    if op in ("put", "create", "append", *ADDITIONS):  # which may be asked in a column value too
        return used | {"input", "value", "rev"} | ({"output"} if op in ADDITIONS else set())
    if op == "get":
        used.add("rev")
    if op not in ("write", "store"):
        used.add("output")  # the column for what was answered
    if "who" in record:
        used |= {"from", "to"}  # the times
    if op in ("cas", "swap"):
        return used | {"from", "to", "ok", "old", "new"}
    return used | {"value"}


def _of_event(record: Record, op: str) -> Set[str]:
    if record["event"] == "call":
        asked = {"write": {"value"}, "put": {"value"}, "append": {"value"}, "cas": {"from", "to"},
                 **dict.fromkeys(ADDITIONS, {"value"})}
        return {"process", "event", "op", "register"} | asked.get(op, set())
    told = {"read": {"value"}, "get": {"value"}, "cas": {"ok"}, **dict.fromkeys(ADDITIONS, {"value"})}
    return {"process", "event"} | told.get(op, set())


_OPS = {0: "read", 1: "write", "cas": "cas", 2: "cas", "get": "read", "put": "write", "append": "write",
        "create": "write", "read": "read", "write": "write", **dict.fromkeys(ADDITIONS, "add")}
_INPUTS = {"read": {"op", "key"}, "write": {"op", "key", "value", "arg1", "version"},
           "cas": {"op", "key", "from", "to", "arg1", "arg2"}, "add": {"op", "key", "value"}}
_OUTPUTS = {"read": {"err", "value", "exists", "version", "unknown"}, "write": {"err", "unknown", "version"},
            "cas": {"err", "ok", "unknown"}, "add": {"err", "value"}}


def _places(record: Record, op: str) -> Iterator[Tuple[Record, Set[str]]]:
    """The maps in a record, each with the names of what is used there."""
    if "Input" in record:
        op = _OPS[record["Input"]["Op"]]
        yield record, {"clientid", "input", "output", "call", "return", "err"}
        yield record["Input"], _INPUTS[op]
        yield record["Output"], _OUTPUTS[op]
    elif "Kind" in record:
        yield record, {"clientid", "kind", "id", "value", "err"}
        yield record["Value"], (_OUTPUTS if record["Kind"] else _INPUTS)[op]
    elif "type" in record:
        yield record, _of_jepsen(record, op)
    else:
        yield record, (_of_event if "event" in record else _of_operation)(record, op)


def _ops(records: List[Record]) -> List[str]:
    """What each event is or ends, where the events don't say so all."""
    opened: Dict[Any, str] = {}
    ops = []
    for record in records:
        who = record.get("Id", record.get("process"))
        if record.get("event") == "call":
            opened[who] = record["op"]
        elif record.get("Kind") is False:
            opened[who] = _OPS[record["Value"]["Op"]]
        ops.append(opened.get(who, ""))
    return ops


def mutated(source: Source, chance: random.Random) -> str:
    """The source with one part changed that isn't used."""
    records = source.records
    ops = _ops(records)
    while True:
        place = chance.randrange(len(records))
        held, used = chance.choice(list(_places(records[place], ops[place])))
        name = chance.choice(["value", "error"] if "gap" in held else [*held, *_NAMES])
        if name.lower() in used:
            continue
        before = dict(held)
        if name in held and chance.random() < 0.2:
            del held[name]
        else:
            held[name] = _another(held.get(name), chance)
        text = source.write(records)
        held.clear()
        held.update(before)
        return text


def _another(value: Any, chance: random.Random) -> Any:
    """Another value; of a pair perhaps a part, or the pair in another form."""
    if isinstance(value, (tuple, list)) and len(value) == 2 and chance.random() < 0.7:
        key, other = value
        changed = chance.choice(_VALUES)
        return chance.choice([[key, changed], [changed, other], key, [key, other, changed], {"key": key},
                              {"table": key, "id": changed}, [["r", key, changed]]])
    return chance.choice(_VALUES)
