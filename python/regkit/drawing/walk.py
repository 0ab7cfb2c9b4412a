"""The script by which a reader walks through the pictures of a page, and what it has to know of the
operations that they show."""
import base64
import hashlib
import json
import pkgutil
from typing import Any, Iterable, NamedTuple, Optional, Sequence

from regkit.drawing.scene import Scene
from regkit.explain.sentences import lines_of, told_of, value_of, what_of
from regkit.history.operations import Operation
from regkit.history.who import moment

Known = dict[str, Any]
SCRIPT = (pkgutil.get_data(__package__ or "", "walk.js") or b"").decode("ascii")
# So that no text of a history can end the element that it stands in, or begin another one.
IN_MARKUP = str.maketrans({character: f"\\u{ord(character):04x}" for character in "<>&"})


class Order(NamedTuple):
    """An order of operations of one register, and what to say of its end."""

    name: str
    operations: Sequence[Operation]
    end: str = ""


def source_of(text: str) -> str:
    """How a policy names a style sheet or a script that stands in its page."""
    digest = hashlib.sha256(text.encode("utf-8")).digest()
    return f"'sha256-{base64.b64encode(digest).decode('ascii')}'"


def values_of(call: Operation) -> list[str]:
    """The values that its call and its reply have, as texts."""
    values: list[Optional[int]] = []
    if call.kind in ("write", "swap", "cas") or (call.kind == "read" and call.tells and call.found is None):
        values.append(call.value)
    if call.kind == "cas":
        values.append(call.asked)
    if call.tells_old:
        values.append(call.old)
    return ["null" if value is None else str(value) for value in dict.fromkeys(values)]


def time_of(call: Operation) -> Optional[str]:
    """`3.0 ms to 4.2 ms`, as far as it was recorded."""
    times = [time for time in (call.time, call.end_time) if time is not None]
    return " to ".join(moment(time).removeprefix("at ") for time in times) or None


def operation_known(call: Operation) -> Known:
    told = told_of(call)
    known = {
        "line": call.line, "end": None if call.pending else call.end_line,
        "name": f"{what_of(call)} {told}".rstrip(), "lines": lines_of(call), "process": call.process,
        "client": call.client, "node": call.node, "time": time_of(call), "values": values_of(call),
        "failed": call.failed or None}
    return {key: value for key, value in known.items() if value is not None}


def order_known(order: Order, drawn: set[int]) -> Optional[Known]:
    """The steps of an order whose operations are drawn, each with the value that the register has then and
    its place among all. None if there are none."""
    steps: list[tuple[int, str, int]] = []
    first = held = "null"
    for place, call in enumerate(order.operations, 1):
        held = value_of(call) if call.writes else held
        if call.line in drawn:
            steps.append((call.line, held, place))
        elif not steps:
            first = held
    return {"name": order.name, "first": first, "last": order.end, "of": len(order.operations),
            "steps": steps} if steps else None


def known(scenes: Iterable[Scene], orders: Iterable[Optional[Order]]) -> str:
    """What the script has to know: each operation once, in however many pictures it is."""
    drawn = {bar.operation.line: bar.operation for scene in scenes for bar in scene.bars
             if bar.operation.line and bar.begin in scene.lanes.lane_of}
    steps = [order_known(order, set(drawn)) for order in orders if order is not None]
    told = {"operations": [operation_known(drawn[line]) for line in sorted(drawn)],
            "orders": list(filter(None, steps))}
    return json.dumps(told, separators=(",", ":")).translate(IN_MARKUP)


def scripts(drawn: str) -> str:
    """The elements of a page that has pictures."""
    return (f'<script type="application/json" id="known">{drawn}</script>'
            f'<script type="module">{SCRIPT}</script>')
