"""The whole way from a source's lines to a history that can be written."""
from typing import Callable, Iterable, NamedTuple

from regkit.convert import events, jepsen, porcupine, tables, versions
from regkit.convert.model import Choices, Refused, Source, SourceOperation, Value
from regkit.convert.names import names
from regkit.convert.processes import Given, give_processes
from regkit.convert.suspects import look_at_reads
from regkit.convert.values import Table, all_written, initial_value, number_texts

READERS: dict[str, Callable[[Iterable[str], Choices], Source]] = {
    "jepsen": jepsen.from_jepsen, "porcupine": porcupine.from_porcupine, "csv": tables.from_csv,
    "operations": tables.from_objects, "jsonl": events.from_events}


class Converted(NamedTuple):
    """A source whose operations have processes, and what its keys and values are called."""

    source: Source
    operations: list[SourceOperation]  # each once, without initial writes
    names: dict[str, str]  # by key, the register
    numbers: Table  # by key, the number of each text; empty while the values are the source's own
    given: Given


def convert(lines: Iterable[str], choices: Choices, number: bool = True) -> Converted:
    """Reads a source. With `number`, each value becomes a whole number.

    Raises Refused or NotEdn if the source can't be converted, and WrongWords if the options don't fit it.
    """
    source = READERS[choices.form](lines, choices)
    read = list(source.operations())
    if not read:
        raise Refused(_nothing_left(source, choices.form))
    given = give_processes(source)
    start = None
    if choices.initial is not None:
        start = initial_value(choices.initial, choices.form, choices.values == "alike")
    _begin(source, read, start)
    source.notes.extend(look_at_reads(source, all_written(source.operations()), choices))
    versions.fold(source, read, choices)
    left = set(source.operations())
    read = [operation for operation in read if operation in left]
    named = names(read)
    numbers = number_texts(source.operations()) if number else {}
    return Converted(source, read, named, numbers, given)


def _nothing_left(source: Source, form: str) -> str:
    if source.skipped:
        return f"nothing is left to check: {source.skipped}"
    return "; ".join([f"the source has no operation to check: is it the right file, and of the form {form}?",
                      *source.notes])


def _begin(source: Source, operations: list[SourceOperation], start: Value) -> None:
    """Puts a completed write of a value to each register before all else, if it starts with one.

    The process that first writes a register later writes its initial value too, so that a single writer stays
    one.
    """
    first: dict[str, SourceOperation] = {}
    for operation in operations:
        known = first.setdefault(operation.key, operation)
        if known.kind == "read" and operation.kind != "read":
            first[operation.key] = operation
    steps: list[SourceOperation] = []
    for key, operation in first.items():
        value = source.starts.get(key) if start is None else start
        if value is None:
            continue
        write = SourceOperation(0, operation.client, "write", key, value)
        write.ending, write.end_line, write.process = "reply", 0, operation.process
        steps += [write, write]
    source.steps = steps + source.steps
