"""What a conversion tells a person: what was read, left out and renamed."""
from typing import Iterator

from regkit.base.limits import MAX_BYTES, MAX_EVENTS
from regkit.convert.model import CAS, DELETE, SWAP, SourceOperation
from regkit.convert.values import repeats
from regkit.convert.whole import Converted
from regkit.words.phrases import counted, for_regsearch


def told(converted: Converted) -> Iterator[str]:
    """Lines for standard error."""
    yield _read(converted)
    for what, lines in sorted(converted.source.left_out.items()):
        yield f"left out {counted(lines, 'line')} {what}"
    yield from converted.source.notes
    words = for_regsearch({_op_of(each) for each in converted.operations},
                          repeats(converted.source.operations()))
    if words:
        yield words
    if not any(each.tells for each in converted.operations):
        yield ("there is no completed read or cas, so a yes would say nothing: regkit check will find too "
               "little evidence")
    yield from _renamed(converted)
    texts = sum(map(len, converted.numbers.values()))
    if texts:
        yield (f"numbered {counted(texts, 'value')} of {counted(len(converted.numbers), 'register')}; the "
               "history says what each number stands for")


def _op_of(operation: SourceOperation) -> str:
    """The word of an operation; of a read that only told whether there was a value, `exists`."""
    return "exists" if operation.kind == "read" and operation.found is not None else operation.kind


def _read(converted: Converted) -> str:
    operations = converted.operations
    writes = sum(operation.kind == "write" for operation in operations)
    failed = sum(operation.ending == "fail" for operation in operations)
    missed = sum(operation.missed for operation in operations)
    unknown = sum(operation.ending in (None, "crash") for operation in operations)
    cas = sum(operation.kind == CAS for operation in operations)
    deletes = sum(operation.kind == DELETE for operation in operations)
    swaps = sum(operation.kind == SWAP for operation in operations)
    reads = len(operations) - writes - cas - deletes - swaps
    clients = len({operation.client for operation in operations})
    return (f"read {counted(len(operations), 'operation')} of {counted(clients, 'client')} on "
            f"{counted(len(converted.names), 'register')}: {counted(writes, 'write')}, "
            f"{counted(reads, 'read')}{f', {cas:,} cas' if cas else ''}"
            f"{''.join(f', {counted(*each)}' for each in ((deletes, DELETE), (swaps, SWAP)) if each[0])}; "
            f"{failed:,} failed, {f'{missed:,} missed, ' if missed else ''}{unknown:,} of unknown outcome")


def _renamed(converted: Converted) -> Iterator[str]:
    given = converted.given
    if given.renamed:
        yield f"numbered {counted(given.renamed, 'client')} that had no process number"
    if given.split:
        yield (f"gave {counted(given.split, 'operation')} another process, since a call of the same client "
               "was still open")
    quoted = sum(key == name and name[0] == '"' and name != '""' for key, name in converted.names.items())
    if quoted:
        yield (f"named {counted(quoted, 'register')} with quotes, since another key would have the same name "
               "without")


def too_large(lines: int, size: int) -> Iterator[str]:
    """A warning about a history that is larger than what regcheck takes at once."""
    if lines > MAX_EVENTS or size > MAX_BYTES:
        yield (f"the history has {lines:,} events in {size:,} bytes, and regcheck takes {MAX_EVENTS:,} in "
               f"{MAX_BYTES:,}: divide it with regkit split")
