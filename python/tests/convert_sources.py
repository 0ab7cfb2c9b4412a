"""Random histories in the form of each tool, as it writes them: `regkit convert --to` has no part in this.

A history is the work of a simulated register for each key. So it is right by construction, until a fault is
planted.
"""
import json
import random
from typing import Any, Callable, Dict, Iterator, List, NamedTuple, Optional, Tuple

from regkit.verify.operations import read_history
from regkit.verify.orders import check_without_line
from regkit.verify.register import Register
from regkit.verify.rows import Wrong

Event = Tuple[int, bool, "Call"]  # a time, whether it is the call, and of which


class Call(NamedTuple):
    """An operation, with times that no other has."""

    client: int
    key: str
    op: str
    value: Optional[int]  # written, or read; None is null
    start: int
    end: Optional[int]  # None if its outcome is unknown
    outcome: str  # ok, fail, unknown, or of a cas missed
    expected: Optional[int] = None  # what a cas asks for


class _Running:
    """A call that is open."""

    def __init__(self, client: int, key: str, op: str, value: Optional[int], start: int) -> None:
        self.client, self.key, self.op, self.value, self.start = client, key, op, value, start
        self.effective = False

    def ended(self, end: Optional[int], outcome: str) -> Call:
        return Call(self.client, self.key, self.op, self.value, self.start, end, outcome)


def right_history(chance: random.Random) -> List[Call]:
    """Clients call, take effect at one moment and get their answers, but for some that fail or get none."""
    clients = list(range(chance.randrange(1, 5)))
    store: Dict[str, Optional[int]] = {"a": None, "b": None}
    running: Dict[int, _Running] = {}
    lost: List[_Running] = []  # writes of an unknown outcome, which may take effect later
    done: List[Call] = []
    written = 0
    for time in range(chance.randrange(6, 34)):
        place = chance.randrange(len(clients))
        client = clients[place]
        call = running.get(client)
        if lost and chance.random() < 0.1:
            late = lost.pop()
            store[late.key] = late.value
        if call is None:
            op = chance.choice(["read", "write"])
            written += op == "write"
            value = written if op == "write" else None
            running[client] = _Running(client, chance.choice("ab"), op, value, time)
        elif not call.effective and chance.random() < 0.85:
            call.effective = True
            if call.op == "write":
                store[call.key] = call.value
            else:
                call.value = store[call.key]
        else:
            del running[client]
            if call.effective and chance.random() < 0.9:
                done.append(call.ended(time, "ok"))
            elif not call.effective and chance.random() < 0.5:
                done.append(call.ended(time, "fail"))
            else:
                done.append(call.ended(None, "unknown"))
                lost += [call] if call.op == "write" and not call.effective else []
                clients[place] = max(clients) + 1
    done += [call.ended(None, "unknown") for call in running.values()]
    return sorted(done, key=lambda call: call.start)


def faulty_history(chance: random.Random) -> List[Call]:
    """A right history in which one read got another answer, such that no order explains it."""
    while True:
        calls = right_history(chance)
        reads = [place for place, call in enumerate(calls) if call.op == "read" and call.outcome == "ok"]
        if reads:
            place = chance.choice(reads)
            values = [call.value for call in calls if call.op == "write" and call.key == calls[place].key]
            calls[place] = calls[place]._replace(value=chance.choice([None, 77, *values]))
            if not is_atomic(plain(calls)):
                return calls


def events(calls: List[Call]) -> List[Event]:
    """Calls and ends in the order of time."""
    return sorted([(call.start, True, call) for call in calls]
                  + [(call.end, False, call) for call in calls if call.end is not None])


def plain(calls: List[Call]) -> str:
    """The history as `regcheck` reads it."""
    lines: List[Dict[str, Any]] = []
    for _, is_call, call in events(calls):
        if is_call:
            lines.append({"process": call.client, "event": "call", "op": call.op, "register": call.key,
                          **asked(call, int)})
        else:
            value = {"value": call.value} if (call.op, call.outcome) == ("read", "ok") else {}
            what = "fail" if call.outcome == "fail" else "reply"
            lines.append({"process": call.client, "event": what, **value, **_ok(call)})
    return "".join(json.dumps(line) + "\n" for line in lines)


def asked(call: Call, spell: Callable[[int], Any]) -> Dict[str, Any]:
    """The members of a call of `regcheck` or `regsearch` that say what it asks for."""
    value, expected = (None if each is None else spell(each) for each in (call.value, call.expected))
    if call.op == "cas":
        return {"from": expected, "to": value}
    return {"value": value} if call.op == "write" else {}


def _ok(call: Call) -> Dict[str, Any]:
    return {"ok": call.outcome == "ok"} if call.op == "cas" and call.outcome in ("ok", "missed") else {}


def is_atomic(history: str) -> bool:
    """Whether each register of a history has an order that explains it, by regkit's verifier."""
    try:
        for name, calls in read_history(history.encode(), True).registers.items():
            check_without_line(Register(name, calls))
    except Wrong:
        return False
    return True


class Form(NamedTuple):
    """A way in which a tool writes histories."""

    form: str  # of `regkit convert --from`
    write: Callable[[List[Call], random.Random], str]
    options: Tuple[str, ...] = ()
    tells_misses: bool = True  # whether it has words of its own for a cas that missed


NEMESIS = ('{:type :info, :f :cut, :process :nemesis, :index %d, :value '
           '#object[jepsen.nemesis$cut__9 0x5c29bfd "jepsen.nemesis$cut__9@5c29bfd"]}')
JEPSEN_TYPES = {"ok": "ok", "fail": "fail", "missed": "fail", "unknown": "info"}


def _steps(calls: List[Call], chance: random.Random) -> Iterator[Tuple[str, Call]]:
    """Jepsen's events: a type with its call. An unknown outcome is told, or the log ends before."""
    for _, is_call, call in events(calls):
        yield ("invoke" if is_call else JEPSEN_TYPES[call.outcome]), call
    for call in calls:
        if call.outcome == "unknown" and chance.random() < 0.5:
            yield "info", call


def _known(kind: str, call: Call) -> Any:
    """The value that an event of Jepsen's has."""
    if call.op == "cas":
        return [call.expected, call.value]
    return call.value if call.op == "write" or kind == "ok" else None


def _edn(value: Any) -> str:
    if isinstance(value, list):
        return f"[{' '.join(map(_edn, value))}]"
    return "nil" if value is None else str(value)


def _is_broken(kind: str, call: Call) -> bool:
    """Whether an event says that something went wrong. A cas that missed didn't."""
    return kind in ("fail", "info") and call.outcome != "missed"


def jepsen_edn(calls: List[Call], chance: random.Random) -> str:
    lines: List[str] = []
    for kind, call in _steps(calls, chance):
        error = ', :error [:broken "n1"]' if _is_broken(kind, call) else ""
        lines.append(f"{{:process {call.client}, :type :{kind}, :f :{call.op}, :value [:{call.key} "
                     f"{_edn(_known(kind, call))}], :index {len(lines)}, :time "
                     f"{len(lines) * 7}{error}}}")
        if chance.random() < 0.1:
            lines.append(NEMESIS % len(lines))
    return "\n".join(lines)


def jepsen_etcd(calls: List[Call], chance: random.Random) -> str:
    """Jepsen's test of etcd, with a version beside each value, which only an answer knows."""
    errors = {"missed": ":did-not-succeed", "fail": ":not-leader", "unknown": ":timeout"}
    lines: List[str] = []
    for kind, call in _steps(calls, chance):
        value, version = _known(kind, call), None
        if kind == "ok" and value is not None:
            version = chance.choice([None, 1, 2, 7])
        error = f", :error {errors[call.outcome]}" if kind in ("fail", "info") else ""
        lines.append(f'{{:process {call.client}, :type :{kind}, :f :{call.op}, :value ["{call.key}" '
                     f"{_edn([version, value])}], :index {len(lines)}{error}}}")
    return "\n".join(lines)


def jepsen_json(calls: List[Call], chance: random.Random) -> str:
    rows: List[Dict[str, Any]] = []
    for kind, call in _steps(calls, chance):
        error = {"error": "broken"} if _is_broken(kind, call) else {}
        rows.append({"index": len(rows), "type": kind, "f": call.op, "value": [call.key, _known(kind, call)],
                     "process": call.client, "time": len(rows), **error})
    return json.dumps(rows) if chance.random() < 0.5 else "\n".join(map(json.dumps, rows))


def _told(calls: List[Call], chance: random.Random, before: str, gap: str) -> str:
    lines = []
    for kind, call in _steps(calls, chance):
        shown = f"[:{call.key} {_edn(_known(kind, call))}]"
        lines.append(before + gap.join([str(call.client), ":" + kind, ":" + call.op, shown,
                                        *([":broken"] if _is_broken(kind, call) else [])]))
        if chance.random() < 0.1:
            lines.append(before + gap.join([":nemesis", ":info", ":cut", "#<Object of ["]))
    return "\n".join(lines)


def jepsen_history_txt(calls: List[Call], chance: random.Random) -> str:
    return _told(calls, chance, "", chance.choice(["\t", "      "]))


def jepsen_console(calls: List[Call], chance: random.Random) -> str:
    return _told(calls, chance, "2026-11-28 05:44:32,001{GMT} INFO [jepsen worker 1] jepsen.util: ", "\t")


def porcupine_log(calls: List[Call], chance: random.Random) -> str:
    lines = []
    for kind, call in _steps(calls, chance):
        value = _known(kind, call)
        text = "nil" if kind == "invoke" and value is None else f'"{"" if value is None else value}"'
        if call.op == "cas":
            expected = chance.choice(["nil", '""']) if call.expected is None else f'"{call.expected}"'
            text = f'[{expected} "{call.value}"]' + (", :error :broken" if _is_broken(kind, call) else "")
        lines.append(f'{{:process {call.client}, :type :{kind}, :f :{_FUNCTIONS[call.op]}, '
                     f':key "{call.key}", :value {text}}}')
    return "\n".join(lines)


_FUNCTIONS = {"read": "get", "write": "put", "cas": "cas"}


def _go_input(call: Call) -> Dict[str, Any]:
    if call.op == "cas":
        return {"Op": "cas", "Key": call.key, "From": "" if call.expected is None else str(call.expected),
                "To": str(call.value), "Version": 3}
    return {"Op": 0 if call.op == "read" else 1, "Key": call.key,
            "Value": str(call.value) if call.op == "write" else "", "Version": 3}


def _go_output(call: Call, chance: random.Random) -> Dict[str, Any]:
    unknown = chance.choice(["ErrMaybe", "timeout"])
    error = {"ok": "OK", "fail": "ErrVersion", "missed": "OK", "unknown": unknown}[call.outcome]
    if call.op == "cas":
        return {"Ok": call.outcome == "ok", "Err": error}
    known = call.op == "read" and call.outcome == "ok" and call.value is not None
    return {"Value": str(call.value) if known else "", "Version": 0, "Err": error}


def porcupine_operations(calls: List[Call], chance: random.Random) -> str:
    rows = []
    for call in calls:
        end: Optional[int] = call.end
        if call.outcome == "unknown":
            end = chance.choice([None, 2 ** 63 - 1, 99])
        rows.append({"ClientId": call.client, "Input": _go_input(call), "Call": call.start,
                     "Output": _go_output(call, chance), "Return": end})
    return json.dumps(rows, indent=1) if chance.random() < 0.3 else "\n".join(map(json.dumps, rows))


def porcupine_etcd(calls: List[Call], chance: random.Random) -> str:
    """Porcupine's model of a register in etcd, with a member for the key beside its own."""
    rows = []
    for call in calls:
        asked_for = {"read": (0, 0, 0), "write": (1, call.value, 0), "cas": (2, call.expected, call.value)}
        given = dict(zip(("Op", "Arg1", "Arg2"), asked_for[call.op]), Key=call.key)
        ok = call.outcome == "ok"
        told = {"Ok": ok and call.op == "cas", "Exists": ok and call.op == "read" and call.value is not None,
                "Value": call.value if ok and call.op == "read" and call.value else 0,
                "Unknown": call.outcome == "unknown"}
        if call.outcome != "fail":  # the model has no failures without an effect
            rows.append({"ClientId": call.client, "Input": given, "Call": call.start, "Output": told,
                         "Return": chance.choice([99, 2 ** 63 - 1]) if call.end is None else call.end})
    return "\n".join(map(json.dumps, rows))


def porcupine_versions(calls: List[Call], chance: random.Random) -> str:
    """Puts by version and gets. Each version has one value."""
    errors = {"ok": ["OK"], "missed": ["ErrVersion"], "fail": ["ErrLeader"],
              "unknown": ["ErrMaybe", "timeout"]}
    rows = []
    for call in calls:
        version = (call.expected if call.op == "cas" else call.value if call.outcome == "ok" else None) or 0
        given: Dict[str, Any] = {"Op": int(call.op != "read"), "Key": call.key, "Value": "", "Version": 0}
        told: Dict[str, Any] = {"Value": "", "Version": 0, "Err": chance.choice(errors[call.outcome])}
        if call.op == "cas":
            given.update(Value=f"v{version + 1}", Version=version)
        elif version:
            told.update(Value=f"v{version}", Version=version)
        elif call.outcome == "ok":
            told.update(Err="ErrNoKey")
        rows.append({"ClientId": call.client, "Input": given, "Call": call.start, "Output": told,
                     "Return": chance.choice([None, 99]) if call.end is None else call.end})
    return "\n".join(map(json.dumps, rows))


def porcupine_events(calls: List[Call], chance: random.Random) -> str:
    rows = []
    number = {call: place for place, call in enumerate(calls)}
    told = [(99, False, call) for call in calls if call.outcome == "unknown" and chance.random() < 0.5]
    for _, is_call, call in events(calls) + told:
        rows.append({"ClientId": call.client, "Kind": not is_call, "Id": number[call],
                     "Value": _go_input(call) if is_call else _go_output(call, chance)})
    return "\n".join(map(json.dumps, rows))


def _rows(calls: List[Call], chance: random.Random) -> Iterator[Dict[str, Any]]:
    for call in sorted(calls, key=lambda _: chance.random()):
        known = call.op == "write" or (call.op == "read" and call.outcome == "ok")
        end = chance.choice([None, 99]) if call.end is None else call.end
        row = {"process": call.client, "start": call.start, "end": end, "register": call.key, "op": call.op,
               "value": call.value if known else None, "outcome": call.outcome}
        if any(each.op == "cas" for each in calls):
            row.update(dict.fromkeys(("from", "to", "ok")), **_cas_columns(call, chance))
        yield row


def _cas_columns(call: Call, chance: random.Random) -> Dict[str, Any]:
    """What only a cas has in a row. That it missed is its outcome, or its ok is false."""
    if call.op != "cas":
        return {}
    more = {"from": call.expected, "to": call.value}
    if call.outcome == "missed" and chance.random() < 0.5:
        return {**more, "ok": False, "outcome": "ok"}
    return {**more, "ok": chance.choice([call.outcome == "ok", None])}


def _table(calls: List[Call], chance: random.Random, delimiter: str) -> str:
    rows = list(_rows(calls, chance))
    lines = [delimiter.join(rows[0])]
    lines += [delimiter.join("" if member is None else str(member) for member in row.values())
              for row in rows]
    return "\n".join(lines)


def csv_table(calls: List[Call], chance: random.Random) -> str:
    return _table(calls, chance, chance.choice(",;\t"))


def csv_words(calls: List[Call], chance: random.Random) -> str:
    words = {"ok": "done", "fail": "refused, too late", "unknown": "timeout", "missed": "another value"}
    lines = ["node;who;from;to;what;key;value;status;version;old;new"]
    for row in _rows(calls, chance):
        if row.get("ok") is False and row["outcome"] == "ok":
            row["outcome"] = "missed"
        row["outcome"] = words[row["outcome"]]
        row["op"] = {"read": "FETCH", "write": "STORE", "cas": "SWAP"}[row["op"]]
        lines.append(";".join("" if row.get(name) is None else str(row[name]) for name in [
            "node", "process", "start", "end", "op", "register", "value", "outcome", "version", "from",
            "to"]))
    return "\n".join(lines)


def operations(calls: List[Call], chance: random.Random) -> str:
    rows = list(_rows(calls, chance))
    return json.dumps(rows) if chance.random() < 0.3 else "\n".join(map(json.dumps, rows))


def operations_codes(calls: List[Call], chance: random.Random) -> str:
    codes: Dict[str, List[Optional[int]]] = {"ok": [200, 204], "fail": [409], "unknown": [500, 504, None],
                                             "missed": [412]}
    rows = []
    for row in _rows(calls, chance):
        row["code"] = chance.choice(codes[row.pop("outcome")])
        rows.append(row)
    return "\n".join(map(json.dumps, rows))


_EVENTS = {"ok": "reply", "fail": "fail", "missed": "reply", "unknown": "timeout"}


def jsonl(calls: List[Call], chance: random.Random) -> str:
    """With the recorder's own members, and with an event for some outcomes that are unknown."""
    rows: List[Dict[str, Any]] = []
    told = [(99, False, call) for call in calls if call.outcome == "unknown" and chance.random() < 0.5]
    for time, is_call, call in events(calls) + told:
        what = "call" if is_call else _EVENTS[call.outcome]
        row: Dict[str, Any] = {"process": f"client {call.client}", "event": what, "time": time}
        if is_call:
            row.update(op=call.op, register=call.key, **asked(call, "v{}".format))
        elif (call.op, call.outcome) == ("read", "ok"):
            row["value"] = None if call.value is None else f"v{call.value}"
        row.update({} if is_call else _ok(call))
        rows.append(row)
    return "\n".join(map(json.dumps, rows))


FORMS: Dict[str, Form] = {
    "jepsen's EDN": Form("jepsen", jepsen_edn, (), False),
    "jepsen's JSON": Form("jepsen", jepsen_json, (), False),
    "jepsen's etcd": Form("jepsen", jepsen_etcd, ("--drop-versions", "--outcomes", "did-not-succeed=missed")),
    "jepsen's history.txt": Form("jepsen", jepsen_history_txt, (), False),
    "jepsen's console": Form("jepsen", jepsen_console, (), False),
    "porcupine's log": Form("porcupine", porcupine_log, (), False),
    "porcupine's operations": Form("porcupine", porcupine_operations, (
        "--ok-when", "Err=OK", "--outcomes", "ErrVersion=fail", "--ignore-member", "Version")),
    "porcupine's events": Form("porcupine", porcupine_events, (
        "--ok-when", "Err=OK", "--outcomes", "ErrVersion=fail", "--ignore-member", "Version")),
    "csv": Form("csv", csv_table),
    "csv in other words": Form("csv", csv_words, (
        "--columns", "process=who,start=from,end=to,op=what,register=key,outcome=status,from=old,to=new",
        "--ops", "fetch=read,store=write,swap=cas", "--outcomes",
        "done=ok,refused, too late=fail,timeout=unknown,another value=missed",
        "--ignore-member", "version")),
    "operations": Form("operations", operations),
    "operations with codes": Form("operations", operations_codes, (
        "--ok-when", "code=200,204", "--outcomes", "409=fail,412=missed")),
    "jsonl": Form("jsonl", jsonl, ("--outcomes", "timeout=unknown")),
}
VERSION_FORM = Form("porcupine", porcupine_versions, (
    "--versions", "Version", "--ok-when", "Err=OK", "--outcomes", "ErrVersion=missed,ErrLeader=fail",
    "--null", ",ErrNoKey"))
CAS_FORMS = {**FORMS, "porcupine's etcd": Form("porcupine", porcupine_etcd)}
