"""What to do about each refusal of the checker."""
import json
from typing import Any, Callable, NamedTuple, Optional

from regkit.base.limits import MAX_EVENTS
from regkit.checker.programs import SEARCHED
from regkit.checker.refusals import Refusal, read_refusal
from regkit.convert.advice import not_taken
from regkit.convert.forms import EVENTS, forms_of
from regkit.convert.model import Refused
from regkit.explain.looks import looks_like, shell_name
from regkit.history.inputs import LOOKED_AT
from regkit.history.lines import Event, NotJson, json_of
from regkit.words.quoting import plain, quoted

# For each member of an event: names under which other tools write it.
OTHER_NAMES = {
    "process": ["client", "thread", "proc", "pid", "worker", "session", "node"],
    "event": ["type", "phase", "ev", "status", "kind"],
    "op": ["f", "operation", "action", "method", "kind", "type"],
    "register": ["key", "k", "reg", "object", "obj", "name", "variable", "var"],
    "value": ["val", "v", "result", "output", "ret", "input"],
}
OTHER_EVENTS = {
    "call": ["invoke", "invocation", "start", "begin", "request"],
    "reply": ["ok", "return", "response", "end", "done", "complete"],
    "fail": ["error", "failed", "failure"],
}
OTHER_OPS = {"read": ["r", "get", "load"], "write": ["w", "put", "set", "store"],
             "delete": ["del", "erase", "remove"]}
UNKNOWN_OUTCOMES = ["info", "timeout", "unknown"]
LONGEST = 60  # characters of a value that is shown
SPLIT = "check parts of it: `regkit split` makes them, each with whole registers"
CONVERT_VALUES = "values are whole numbers: number them, or let `regkit convert --from jsonl` do it"
OF_THE_RUN = {
    "input is longer than": SPLIT,
    f"more than {MAX_EVENTS} events": SPLIT,
    "input could not be read": "is it a file that can be read?",
    "no memory or no thread": "give it more memory, or check parts of it: `regkit split` makes them",
    "output could not be written": "is the disk full?",
}


class Place(NamedTuple):
    """A refused line, and what is around it."""

    history: list[bytes]  # all lines
    refusal: Refusal
    event: Event

    def earlier(self, process: Any) -> Optional[Event]:
        """The last event of a process before this line."""
        for line in reversed(self.history[:self.refusal.line - 1]):
            event = object_of(line)
            if event is not None and event.get("process") == process:
                return event
        return None


def is_of_another_form(history: bytes) -> bool:
    """Whether a long input isn't a history of our own yet."""
    try:
        return bool(set(forms_of(history[:LOOKED_AT])) - {EVENTS})
    except Refused:
        return False


def convert_first(name: str) -> str:
    return (f"it isn't a history yet: `regkit convert {shell_name(name)} -o h.jsonl` makes one, and `regkit "
            "split` parts of that, each with whole registers")


def object_of(line: bytes) -> Optional[Event]:
    """The object on a line, or None if it has none."""
    try:
        value = json_of(line)
    except NotJson:
        return None
    return value if isinstance(value, dict) else None


def shown(value: Any) -> str:
    """A value of the input as JSON, cut if it is long."""
    text = plain(json.dumps(value, ensure_ascii=False))
    return text if len(text) <= LONGEST else text[:LONGEST] + ".."


def misnamed(event: Event, member: str) -> Optional[str]:
    """What to do about a member that isn't there, perhaps because it has another name."""
    if member in event:
        return None
    other = next((name for name in OTHER_NAMES[member] if name in event), None)
    if other is None:
        return f"the line has no `{member}`: add it"
    return f"the line has `{other}` where `{member}` is meant: rename it"


def synonym(word: Any, words: dict[str, list[str]]) -> Optional[str]:
    """The word of the format for another word of the same meaning."""
    if not isinstance(word, str):
        return None
    return next((own for own, others in words.items() if word.lower() in others + [own]), None)


def no_json(place: Place) -> str:
    """A line that isn't JSON, in an input that looks like lines of JSON."""
    line = place.history[place.refusal.line - 1]
    if place.refusal.line == len(place.history):
        return "the last line is cut short: the recorder was stopped while it wrote; delete that line"
    if line.rstrip().endswith(b","):
        return "the line ends with a comma: there is none between the events, each has a line of its own"
    if b"'" in line and b'"' not in line:
        return "the line has single quotes: write it with a JSON library, such as Python's json.dumps"
    return 'each line is one JSON object, such as {"process":1,"event":"reply"}'


def no_object(place: Place) -> str:
    return 'each line is one JSON object, such as {"process":1,"event":"reply"}'


def no_process(place: Place) -> str:
    process = place.event["process"]
    if isinstance(process, str) and process.isdecimal():
        return f"the process is the text {shown(process)}: write it as a number, without quotes"
    return (f"the process is {shown(process)}: give each client a whole number, or let "
            "`regkit convert --from jsonl` do it")


def no_event(place: Place) -> str:
    event = place.event["event"]
    if event in UNKNOWN_OUTCOMES:
        return f"the event is {shown(event)}: leave it out, as a call whose outcome is unknown stays pending"
    own = synonym(event, OTHER_EVENTS)
    if own == "fail":
        return f"the event is {shown(event)}: a call that certainly had no effect is ended by `fail`"
    return f"the event is {shown(event)}: write {f'`{own}`' if own else 'one of these'}"


def no_op(place: Place) -> str:
    op = place.event["op"]
    own = synonym(op, OTHER_OPS)
    if own:
        return f"the op is {shown(op)}: write `{own}`"
    if op in SEARCHED:
        return f"the op is {shown(op)}: regcheck takes reads and writes alone"
    what = f", or let `regkit convert` take it for what it is: {not_taken(op)}" if isinstance(op, str) else ""
    return (f"the op is {shown(op)}: only reads, writes, deletes, swaps and cas can be checked, so leave "
            f"this register out{what}")


def no_register(place: Place) -> str:
    register = place.event["register"]
    if isinstance(register, str):
        return "give the register a name" if not register else "shorten the name, the same way on each line"
    return f"the register is {shown(register)}: write its name as a text, in quotes"


def no_value(place: Place) -> str:
    """A value that its event can't have."""
    event, value = place.event, place.event.get("value")
    if event.get("event") == "call" and event.get("op") == "read":
        return "a read's call has no value: leave it out, and give the value in the reply"
    if event.get("event") == "call" and event.get("op") == "delete":
        return ("a delete's call has no value: leave it out; or write a cas from this value to null, if only "
                "this value is deleted")
    if value is None:
        absent = misnamed(event, "value")
        return absent or 'a write of null has no form: write `"op":"delete"`, without a value'
    if isinstance(value, bool) or not isinstance(value, (int, float)):
        return f"the value is {shown(value)}: {CONVERT_VALUES}"
    if isinstance(value, float):
        return f"the value is {shown(value)}: write a whole number, without a fraction or an exponent"
    return f"the value is {shown(value)}: it has to fit into 64 bits"


def busy(place: Place) -> str:
    return (f"process {shown(place.event['process'])} called again before the answer to line "
            f"{place.refusal.other}: give each thread a number of its own, and a client a new one after a "
            "call whose outcome is unknown")


def unasked(place: Place) -> str:
    process = shown(place.event["process"])
    if place.earlier(place.event["process"]) is None:
        return f"process {process} made no call before: write the call's line before the request leaves"
    return f"the last call of process {process} was answered already: write one reply for each call"


def disagreeing(place: Place) -> str:
    call = place.earlier(place.event["process"]) or {}
    for member in ("op", "register", "value"):
        said, called = place.event.get(member), call.get(member)
        if said is not None and said != called and not (member == "value" and call.get("op") == "read"):
            return (f"its `{member}` is {shown(said)}, the call's is {shown(called)}: is it the answer to "
                    f"another call? `{member}` may be left out")
    return "write the call's op, register and value, or leave them out"


def unread(place: Place) -> str:
    return "give the value that the read got, or null if there was none"


def repeated(place: Place) -> str:
    value, register = shown(place.event.get("value")), place.event.get("register")
    name = quoted(register) if isinstance(register, str) else "the register"
    return (f"{value} is written to {name} twice: number the writes of each register, so that the n-th "
            "writes n. A retry is a write of its own, with its own value")


def no_change(place: Place) -> str:
    """A cas whose values don't fit."""
    return ("a cas has the value that it asks for in `from`, or the only one for which it doesn't in "
            "`unless`, and the one that it writes in `to`: each is a whole number or null")


def unsaid(place: Place) -> str:
    """A cas's reply that doesn't say whether it took place."""
    return ("write `\"ok\":true` if it took place, and `\"ok\":false` if the store found another value; if "
            "you don't know, write no reply, as the call then stays pending")


def unfit(place: Place) -> str:
    """What was found, in a form that says nothing or another thing."""
    return ("`found` is true if there was a value, and else false; `old` is that value, a whole number or "
            "null: leave out what the store doesn't tell, but the reply of a swap needs one of them, and "
            "`ok` and `old` of a cas have to agree")


def crashed(place: Place) -> str:
    process = shown(place.event["process"])
    return f"a client that comes back after a crash needs a new number: process {process} does nothing more"


MEMBERS = {4: "process", 5: "event", 6: "op", 7: "register"}  # by refusal, the member that has to be there
ADVICE: dict[int, Callable[[Place], str]] = {
    2: no_json, 3: no_object, 4: no_process, 5: no_event, 6: no_op, 7: no_register, 8: no_value, 9: busy,
    10: unasked, 11: disagreeing, 12: unread, 13: repeated, 19: crashed, 20: no_change, 21: unsaid,
    22: unfit}


def advice(history: bytes, refusal: str, name: str = "-") -> str:
    """What to do about the refusal of a history from the file `name`. Empty if there is nothing to say."""
    for beginning, words in OF_THE_RUN.items():
        if beginning in refusal:
            return convert_first(name) if words == SPLIT and is_of_another_form(history) else words
    found = read_refusal(refusal)
    if found is None:
        return ""
    if found.number <= 3:
        looks = looks_like(history, name)
        if looks:
            return looks
    lines = history.split(b"\n")
    place = Place(lines, found, object_of(lines[found.line - 1]) or {})
    absent = misnamed(place.event, MEMBERS[found.number]) if found.number in MEMBERS else None
    return absent or ADVICE.get(found.number, no_object)(place)
