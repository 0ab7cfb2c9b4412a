"""Writes a source in the form of another tool. The values are the source's own.

The forms with times (csv, operations) get the place of each line as its time, so that no two are alike.
"""
import csv
import io
import json
from typing import Any, Callable, Iterator

from regkit.convert import edn
from regkit.convert.model import (CAS, COUNT_DELETE, DELETE, DELETE_IF, EXISTS, FETCH_DELETE, REPLACE,
                                  Refused, Source, SourceOperation, Value)
from regkit.convert.columns import PLAIN_COLUMNS, WRITTEN
from regkit.convert.values import unsettled

_TYPES = {"reply": ":ok", "fail": ":fail", "crash": ":info"}
_EDN = {True: "true", False: "false", None: "nil"}
_OK = {True: "true", False: "false", None: ""}
_FUNCTIONS = {"read": "get", "write": "put", CAS: CAS}
_OUTCOMES = {"reply": "ok", "fail": "fail", "crash": "unknown", None: "unknown"}


def _word_of(step: SourceOperation) -> str:
    """The word for an operation that says what its reply tells. Raises Refused if there is none."""
    if step.kind == "write":
        return "write"
    if step.kind == "read":
        return "read" if step.found is None else EXISTS
    if step.kind == DELETE and step.tells_old:
        return FETCH_DELETE
    if step.kind == DELETE:
        return DELETE if step.found is None else COUNT_DELETE
    is_plain = step.kind == CAS and not step.tells_old
    if is_plain and not step.unless:
        return DELETE_IF if step.clears else CAS
    if is_plain and step.expected is None and not step.clears:
        return REPLACE
    raise Refused(f"a {step.kind} {'unless a value' if step.unless else 'that tells what was there'} has no "
                  "word in this form: leave out --to", step.line)


def _value_of(step: SourceOperation) -> Any:
    """The one value of an operation: what it asks for or writes, or what its reply tells."""
    if step.kind == DELETE:
        return step.old if step.found is None else int(step.found)  # how many values there were
    if step.kind == "read" and step.found is not None:
        return step.found
    return step.expected if step.clears else step.value


def _edn_value(value: Value) -> str:
    return _EDN[value] if value is None or type(value) is bool else str(value)


def _type_of(step: SourceOperation, is_call: bool) -> str:
    if step.kind == "crash":
        return ":info"
    if is_call:
        return ":invoke"
    return ":fail" if step.kind == CAS and step.missed else _TYPES[step.ending or ""]


def _events(source: Source, shown: Callable[[Value], str]) -> Iterator[tuple[SourceOperation, str, str, str]]:
    """Each step with its type in Jepsen's words, its value and perhaps an error. Only a read's call has none.

    A cas that missed is a failure, as the tools write it. One that failed has an error beside that, so that
    `--failed-cas missed` tells the two apart.
    """
    for step, is_call in source.moments():
        kind = _type_of(step, is_call)
        if step.kind == CAS:
            failed = not is_call and step.ending == "fail"
            is_pair = _word_of(step) == CAS
            yield (step, kind,
                   f"[{shown(step.expected)} {shown(step.value)}]" if is_pair else shown(_value_of(step)),
                   ", :error :no-effect" if failed else "")
        else:
            known = step.kind == "write" or (not is_call and step.ending == "reply")
            yield step, kind, shown(_value_of(step) if known else None), ""


def to_jepsen(source: Source) -> Iterator[str]:
    """EDN as Jepsen writes it, with independent keys."""
    for place, (step, kind, value, error) in enumerate(_events(source, _edn_value)):
        function = "read" if step.kind == "crash" else _word_of(step)
        held = "nil" if step.kind == "crash" else f"[{step.key} {value}]"
        yield (f"{{:process {step.process}, :type {kind}, :f :{function}, :value {held}, "
               f":index {place}, :time {place * 1000}{error}}}\n")


def to_porcupine(source: Source) -> Iterator[str]:
    """The EDN of Porcupine's logs of a key-value store: keys and values are texts."""
    for step, kind, value, error in _events(source, _edn_text):
        if step.kind == "crash":
            continue
        word = _word_of(step)
        function = _FUNCTIONS.get(word, word)
        yield (f"{{:process {step.process}, :type {kind}, :f :{function}, :key "
               f"{edn.quote(_plain(step.key))}, :value {value}{error}}}\n")


def _edn_text(value: Value) -> str:
    return _edn_value(value) if value is None or type(value) is bool else edn.quote(_plain(value))


def _plain(value: Value) -> str:
    """A key or a value as a text: a text is itself."""
    found = unsettled(value)
    if found is None or type(found) is bool:
        return _OK[found]
    return found if type(found) is str else edn.write(found)


def _rows(source: Source) -> list[list[Any]]:
    """The columns of each operation, in the order of the calls."""
    rows: dict[SourceOperation, list[Any]] = {}
    for place, (step, is_call) in enumerate(source.moments()):
        if step.kind == "crash":
            continue
        if is_call:
            word = _word_of(step)
            rows[step] = [step.process, place, None, step.key, word, _value_of(step), _OUTCOMES[step.ending]]
            took_place = not step.missed if step.ending == "reply" else None
            if word == CAS:
                rows[step][5] = None
                rows[step] += [step.expected, step.value, took_place]
            elif step.kind == CAS:
                rows[step] += [None, None, took_place]
        elif step.ending != "crash":
            rows[step][2] = place
    return list(rows.values())


def to_csv(source: Source) -> Iterator[str]:
    """A table with a header. A cas has columns of its own, if there is any."""
    text = io.StringIO()
    writer = csv.writer(text, lineterminator="\n")
    rows = _rows(source)
    columns = WRITTEN if any(len(row) > len(PLAIN_COLUMNS) for row in rows) else PLAIN_COLUMNS
    writer.writerow(columns)
    for process, start, end, key, kind, value, outcome, *cas in rows:
        cells = [process, start, end, _plain(key), kind, _plain(value), outcome]
        cells += [_plain(cas[0]), _plain(cas[1]), _OK[cas[2]]] if cas else []
        writer.writerow(cells + [""] * (len(columns) - len(cells)))
    yield text.getvalue()


def to_operations(source: Source) -> Iterator[str]:
    """A JSON object an operation."""
    for row in _rows(source):
        for place in (3, 5, 7, 8):
            row[place:place + 1] = map(_json_value, row[place:place + 1])
        yield json.dumps(dict(zip(WRITTEN, row)), separators=(",", ":")) + "\n"


def _json_value(value: Value) -> Any:
    """A key or a value as JSON has it: whole numbers and texts are themselves."""
    found = unsettled(value)
    return found if found is None or type(found) in (bool, int, str) else edn.write(found)


WRITERS: dict[str, Callable[[Source], Iterator[str]]] = {
    "jepsen": to_jepsen, "porcupine": to_porcupine, "csv": to_csv, "operations": to_operations}
