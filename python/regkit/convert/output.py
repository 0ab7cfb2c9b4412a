"""The lines of a history, which say what their numbers stand for, and the map that leads back to the source.

The map is one JSON object:

    {"source":"times.csv","registers":["k"],"values":{"k":{"1":"v1"}},"processes":{"0":"alice"},"lines":[2,2]}

`values` has, by register and number, the source's value of each number that stands for one; whole numbers
that stayed aren't there. `processes` has the client of each process that isn't its client's own number.
`lines` has for each line of the history, in order, the line of the source that it came from, 0 for an initial
write.
"""
import itertools
import json
from typing import Any, Iterable, Iterator, NamedTuple, TextIO

from regkit.convert.model import CAS, DELETE, Source, SourceOperation, Value
from regkit.convert.values import Table, readable
from regkit.convert.whole import Converted
from regkit.history import texts
from regkit.history.who import members

_AT_ONCE = 10_000


class _Texts:
    """Says of each number what it stands for, once, in the first line that has it."""

    def __init__(self, numbers: Table) -> None:
        self.unsaid = {key: {number: text for text, number in own.items()} for key, own in numbers.items()}

    def of(self, key: str, *values: Value) -> str:
        unsaid = self.unsaid.get(key)
        return texts.member({int(value): unsaid.pop(int(value)) for value in values
                             if value in unsaid}) if unsaid else ""


def history_lines(converted: Converted) -> Iterator[str]:
    quoted = {key: json.dumps(name, ensure_ascii=False) for key, name in converted.names.items()}
    said = _Texts(converted.numbers)
    for step, is_call in converted.source.moments():
        process, value, who = step.process, step.value, _who(step, is_call)
        if step.kind == "crash":
            yield f'{{"process":{process},"event":"crash"{who}}}\n'
        elif not is_call:
            if step.ending != "reply":
                yield f'{{"process":{process},"event":"{step.ending}"{who}}}\n'
            else:
                text = said.of(step.key, value) if step.kind == "read" else said.of(step.key, step.old)
                key = f',"register":{quoted[step.key]}' if text else ""  # the text goes with the register
                yield f'{{"process":{process},"event":"reply"{key}{_answered(step)}{text}{who}}}\n'
        else:
            text = "" if step.kind == "read" else said.of(step.key, step.expected, value)
            yield (f'{{"process":{process},"event":"call","op":"{step.kind}","register":{quoted[step.key]}'
                   f'{_asked(step)}{text}{who}}}\n')


def _asked(step: SourceOperation) -> str:
    """The members that say what a call asks for."""
    if step.kind == CAS:
        asked, old = "unless" if step.unless else "from", ',"old":true' if step.tells_old else ""
        return f',"{asked}":{_shown_value(step.expected)},"to":{_shown_value(step.value)}{old}'
    return "" if step.kind in ("read", DELETE) else f',"value":{step.value}'


def _answered(step: SourceOperation) -> str:
    """The members that say what a reply tells."""
    if step.kind == "read" and step.found is None:
        return f',"value":{_shown_value(step.value)}'
    told = f',"ok":{"false" if step.missed else "true"}' if step.kind == CAS else ""
    if step.found is not None:
        told += f',"found":{"true" if step.found else "false"}'
    return told + (f',"old":{_shown_value(step.old)}' if step.tells_old else "")


def _shown_value(value: Value) -> Value:
    return "null" if value is None else value


def _who(step: SourceOperation, is_call: bool) -> str:
    """The members that say who and when: the client if it isn't the process itself, and the time if it is
    known in nanoseconds. An initial write is nobody's."""
    if not step.line:
        return ""
    client = step.name or ("" if step.process == step.client else str(step.client))
    return members(client, step.node, step.time if is_call else step.end_time)


class Written(NamedTuple):
    """How much was written."""

    lines: int
    size: int  # in bytes


def write_lines(lines: Iterable[str], out: TextIO) -> Written:
    """Writes lines many at once."""
    rest = iter(lines)
    count = size = 0
    while True:
        held = list(itertools.islice(rest, _AT_ONCE))
        if not held:
            return Written(count, size)
        text = "".join(held)
        out.write(text)
        count, size = count + len(held), size + len(text.encode("utf-8"))


def source_map(converted: Converted, name: str) -> dict[str, Any]:
    """The map of a history, for json.dump."""
    lines: list[int] = []
    clients: dict[int, Any] = {}
    for step, is_call in converted.source.moments():
        lines.append(step.line if is_call else step.end_line or 0)
        if step.line and step.process != step.client:
            clients[step.process] = step.client
    return {"source": name, "registers": list(converted.names.values()), "values": _shown(converted),
            "processes": {str(process): clients[process] for process in sorted(clients)}, "lines": lines}


def _shown(converted: Converted) -> dict[str, dict[str, str]]:
    """The source's value of each number, by register: a text without its quotes, if that leaves no doubt."""
    shown: dict[str, dict[str, str]] = {}
    for key, numbers in converted.numbers.items():
        kept = {str(value) for value in _whole_numbers(converted.source, key, numbers)}
        forms = readable(numbers)
        plain = not kept & set(forms.values())
        shown[converted.names[key]] = {str(number): forms[text] if plain else text
                                       for text, number in numbers.items()}
    return shown


def _whole_numbers(source: Source, key: str, numbers: dict[str, int]) -> Iterator[int]:
    """The whole numbers that a register has itself, beside those that stand for texts."""
    standing = set(numbers.values())
    return (value for operation in source.operations() if operation.key == key
            for value in operation.values
            if type(value) is int and value not in standing)
