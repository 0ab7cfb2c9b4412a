"""Joins the reports of the parts into the one that one run over the whole history would write."""
import json
from array import array
from contextlib import ExitStack
from typing import Any, BinaryIO, Callable, Iterator, Optional, Sequence

from regkit.checker.levels import CAUSAL, HALVES, LEVELS, kept
from regkit.checker.programs import LEVEL
from regkit.checker.refusals import same_line
from regkit.checker.report import Row
from regkit.parts.answers import Answered, LineOf
from regkit.parts.folder import MAP, Manifest

# The keys of a register's line whose values are line numbers.
LINE_KEYS = {"fault", "inversion", "order", "points", "regular_read", "safe_read", "unwritten", "early",
             "gap", "stale_reads", "stale_read", "own_read", "back_read", "inverted_read", "lost_write",
             *(f"{level}_fault" for level in ("session", *HALVES, "sequential"))}
NO_LINES = {"kind", "events"}  # the keys within these whose values are none
OF_THE_WHOLE = (CAUSAL, f"{CAUSAL}_fault", f"{CAUSAL}_order")  # they don't come together from parts
SUMS = ("back", "inverted", "lost", "operations", "own", "reads", "registers", "stale")
GRAVITY = ("no", "unknown", "yes")  # of the parts' verdicts, the first that there is is that of the whole


class MergedOrder:
    """The orders of the registers, merged by their points.

    A point is a line and belongs to one register, and along an order it never falls. So sorting by point
    alone gives the merged order, if equal points stay as they came."""

    def __init__(self) -> None:
        self.lines = array("Q")
        self.points = array("Q")

    def add(self, row: Row) -> None:
        self.lines.extend(row["order"])
        self.points.extend(row["points"])

    def order(self) -> Iterator[int]:
        return map(self.lines.__getitem__, sorted(range(len(self.lines)), key=self.points.__getitem__))


def verdict_of(parts: Sequence[Answered]) -> str:
    """The verdict of the whole: yes, no or unknown."""
    return min((part.atomic for part in parts), key=GRAVITY.index)


def write_report(parts: Sequence[Answered], manifest: Manifest, with_order: bool, out: BinaryIO,
                 reach: Callable[[int], None]) -> None:
    """Writes the lines of the registers in the order of their first calls in the whole, then the summary."""
    atomic = verdict_of(parts)
    merge = MergedOrder() if with_order and atomic == "yes" else None
    with ExitStack() as opened:
        reports = [opened.enter_context(open(part.report, "rb")) for part in parts]
        for done, part in enumerate(manifest.registers):
            row = reports[part].readline()
            if merge is not None or manifest.lines == MAP or without_gaps(parts):
                row = whole_row(row, parts[part].line_of, merge, without_gaps(parts))
            out.write(row)
            reach(done)
    if parts[0].program == LEVEL:
        out.write(text_of(levels_summary(parts)))
        out.flush()
        return
    operations = sum(part.summary["operations"] for part in parts)
    out.write(b'{"atomic":"%s","operations":%d,' % (atomic.encode(), operations))
    if merge is not None:
        out.write(b'"order":[%s],' % ",".join(map(str, merge.order())).encode())
    out.write(b'"registers":%d}\n' % len(manifest.registers))
    out.flush()


def without_gaps(parts: Sequence[Answered]) -> bool:
    """Whether the gaps of registers are left out. A gap counts the events between two operations, and a part
    has not all of them."""
    return parts[0].program == LEVEL and len(parts) > 1


def levels_summary(parts: Sequence[Answered]) -> Row:
    """The summary of reglevel for the whole. Of several parts it says nothing of causal."""
    summaries = [part.summary for part in parts]
    found: Row = {key: sum(summary[key] for summary in summaries) for key in SUMS}
    found.update({level: "yes" if all(level in kept(summary) for summary in summaries) else "no"
                  for level in LEVELS})
    if found["session"] == "yes":
        found = {key: value for key, value in found.items() if key not in HALVES}
    unclean = sum(summary.get("unclean", 0) for summary in summaries)
    if unclean:
        found["unclean"] = unclean
    if len(summaries) == 1:
        found.update({key: relined(summaries[0][key], parts[0].line_of)
                      for key in OF_THE_WHOLE if key in summaries[0]})
        found.update({key: summaries[0][key] for key in ("gap",) if key in summaries[0]})
    return dict(sorted(found.items()))


def text_of(row: Row) -> bytes:
    return json.dumps(row, separators=(",", ":"), ensure_ascii=False).encode("utf-8") + b"\n"


def whole_row(line: bytes, line_of: LineOf, merge: Optional[MergedOrder], without_gap: bool) -> bytes:
    """The line of a register with the lines of the whole. Its order is added to the merged one."""
    row = json.loads(line)
    if without_gap:
        row.pop("gap", None)
    if line_of is not same_line:
        row = {key: relined(value, line_of) if key in LINE_KEYS else value for key, value in row.items()}
    if merge is not None:
        merge.add(row)
    return text_of(row) if without_gap or line_of is not same_line else line


def relined(value: Any, line_of: LineOf) -> Any:
    """A line, a list, or an object: its lines, lists and objects, and what isn't a line as it is."""
    if isinstance(value, int):
        return line_of(value)
    if isinstance(value, list):
        return [relined(part, line_of) for part in value]
    if isinstance(value, dict):
        return {key: part if key in NO_LINES else relined(part, line_of) for key, part in value.items()}
    return value
