"""What a yes rests on. A history without a completed read says nothing of a store, however atomic it is."""
import io
import json
from bisect import bisect_left
from itertools import islice
from typing import NamedTuple

from regkit.history.operations import History, NotAHistory, Operation, history_of

LINES = 4_096  # of the beginning of a long history, which has evidence enough most often


class Evidence(NamedTuple):
    """The counts of a history. Failed calls are no operations and count nowhere."""

    operations: int
    registers: int
    completed_reads: int  # a change whose answer tells what the value was, as a cas's does, is one too
    overlapping_reads: int  # of the completed reads, those that overlap a write of their register
    at_least: bool = False  # whether there may be more reads of either kind than were counted


def count_overlapping(calls: list[Operation]) -> int:
    """How many completed reads of one register overlap a write. A pending write never ends. A change whose
    answer tells what the value was, as a cas's does, counts as a read; and as a write too unless it
    missed."""
    writes = [call for call in calls if call.writes and not call.failed]
    begun = [write.line for write in writes]
    ended = sorted(write.end_line for write in writes if write.completed and write.end_line is not None)
    count = 0
    for read in calls:
        if read.tells and read.end_line is not None:
            # The writes that ended before the read are among those that began before its end.
            count += bisect_left(begun, read.end_line) > bisect_left(ended, read.line) + read.writes
    return count


def count_evidence(history: History) -> Evidence:
    completed = sum(call.tells for call in history.calls)
    overlapping = sum(count_overlapping(calls) for calls in history.registers.values())
    operations = sum(not call.failed for call in history.calls)
    return Evidence(operations, len(history.registers), completed, overlapping)


def evidence_of_beginning(data: bytes) -> Evidence:
    """The evidence in the first lines of an accepted history, which are read as one array, since that is
    quicker. What comes after them takes none of it back: a write that is unanswered there may still fail, so
    it isn't counted. Raises NotAHistory."""
    stream = io.BytesIO(data)
    lines = b",".join(line for line in islice(stream, LINES) if line.strip())
    try:
        history = history_of(enumerate(json.loads(b"[%b]" % lines), 1))
    except (ValueError, RecursionError) as error:
        raise NotAHistory("no history that regcheck accepts") from error
    if stream.tell() == len(data):
        return count_evidence(history)
    for call in history.calls:
        if call.pending:
            call.ending = "fail"
    return count_evidence(history)._replace(at_least=True)
