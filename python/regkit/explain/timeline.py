"""A picture in text: a row for each call, and a column for each line where one of them begins or ends."""
from typing import NamedTuple

from regkit.explain.sentences import change_of, value_of, wanted_of
from regkit.history.operations import Operation
from regkit.words.quoting import columns

WIDEST = 4  # characters a column, at most
OPEN, REPLY, FAIL, CRASH, UNANSWERED = "[", "]", "x", "!", ">"
MEANINGS = {REPLY: "answered", FAIL: "failed", CRASH: "its process crashed", UNANSWERED: "never answered"}
SIGNS = {"reply": REPLY, "fail": FAIL, "crash": CRASH, None: UNANSWERED}


class Entry(NamedTuple):
    """A call with the sign that is shown before its bar, and the colour of its row."""

    call: Operation
    sign: str
    style: str


class Line(NamedTuple):
    """A row of the picture, and its colour."""

    text: str
    style: str


def labels(call: Operation) -> list[str]:
    """The lines, the process, and what was called, each for a column of its own."""
    if call.line == 0:
        return ["before line 1", "", "write null"]
    lines = f"{call.line}" if call.end_line is None else f"{call.line} to {call.end_line}"
    return [lines, f"process {call.process}", asked_and_told(call)]


def asked_and_told(call: Operation) -> str:
    """`write 11`, `cas from 0 to 1, true`, `delete, found a value`."""
    took = {True: ", true", False: ", false", None: ""}[call.took]
    if call.tells_old:
        return f"{change_of(call)}, found {wanted_of(call)}{took}"
    if call.found is not None:
        return f"{change_of(call)}, found {'a value' if call.found else 'nothing'}"
    if call.kind in ("read", "write"):
        return call.kind + (f" {value_of(call)}" if call.kind == "write" or call.completed else "")
    return change_of(call) + took


def columns_of(entries: list[Entry]) -> dict[int, int]:
    """The place of each line where a call begins or ends. Nothing else of the history has a column."""
    lines: set[int] = set()
    for entry in entries:
        lines.update(line for line in (entry.call.line, entry.call.end_line) if line is not None)
    return {line: place for place, line in enumerate(sorted(lines))}


def bar(call: Operation, places: dict[int, int], width: int, filling: str) -> str:
    """The bar of a call. An open end goes on to the right edge."""
    begin = places[call.line] * width
    if call.end_line is None:
        return " " * begin + OPEN + filling * ((len(places) - 1) * width - begin) + UNANSWERED
    length = places[call.end_line] * width - begin
    end = SIGNS[call.ending]
    return " " * begin + (OPEN + filling * (length - 1) + end if length else end)


def legend(entries: list[Entry]) -> list[str]:
    """What the ends of the bars mean, those that are there."""
    used = {SIGNS[entry.call.ending] for entry in entries}
    return [f"{OPEN} called"] + [f"{sign} {meaning}" for sign, meaning in MEANINGS.items() if sign in used]


def draw(entries: list[Entry], width: int) -> list[Line]:
    """The rows, by line of call, no wider than `width` if that is possible."""
    entries = sorted(entries, key=lambda entry: entry.call.line)
    places = columns_of(entries)
    named = [labels(entry.call) for entry in entries]
    spans = [max(columns(label[place]) for label in named) for place in range(3)]
    room = width - sum(spans) - 10
    across = max(1, min(WIDEST, room // max(1, len(places))))
    rows = []
    for entry, label in zip(entries, named):
        padded = "  ".join(text + " " * (span - columns(text)) for text, span in zip(label, spans))
        filling = "=" if entry.sign.strip() else "-"
        drawn = bar(entry.call, places, across, filling)
        rows.append(Line(f"{padded} {entry.sign or ' '} {drawn}", entry.style))
    return rows
