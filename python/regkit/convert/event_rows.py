"""Tables with a row for each event: the rows of a call and of what ended it make one row of an operation.

    time,process,event,op,register,value
    10,alice,call,write,k,v1
    20,alice,reply,write,k,
    30,bob,call,read,k,
    40,bob,reply,read,k,v1

A row ends the open call of its process, or the one that has its `id` if the table has such a column. Without
`time`, the order of the rows is the order of time. The value of a call is what was asked, and that of a reply
what was answered.
"""
import shlex
from typing import Any, Iterable, Iterator, Optional

from regkit.convert.clock import Clock, Time
from regkit.convert.columns import Used, used_as
from regkit.convert.model import Choices, Refused, WrongWords, folded
from regkit.convert.rows import ABSENT, Row, is_nothing
from regkit.convert.spellings import spelled

_CALLS = frozenset({"call", "invoke", "invocation", "start", "begin", "request"})
# The outcome by the word of an event that ends a call. A reply doesn't say whether a cas took place.
_ENDS = {"ok": "ok", "reply": "", "return": "", "response": "", "end": "", "fail": "fail", "missed": "missed",
         "info": "unknown", "unknown": "unknown", "crash": "unknown"}
_OF_THE_CALL = ("process", "op", "register", "input", "from_", "to")  # which the row of the end may repeat
_OF_THE_END = ("output", "outcome", "ok")  # which the row of a call doesn't have


def operations_of(rows: Iterable[Row], used: Used, choices: Choices) -> Iterator[Row]:
    """The operations of some events, in the order of their calls. Raises Refused, and WrongWords."""
    if "time" not in used.names and (choices.clock_error or choices.clock_unit):
        raise WrongWords("--clock-error and --clock-unit are for times, and the table has no column of a "
                         "time: say which it is with --columns time=NAME")
    pairs = _Pairs(choices, used)
    for row in rows:
        pairs.take(row)
    for call, end in pairs.pairs:
        yield pairs.operation(call, end)


class _Pairs:
    """Calls, each with what ended it."""

    def __init__(self, choices: Choices, used: Used) -> None:
        self.choices = choices
        self.used = used
        value = used.name("value")
        self.operations = used_as({"input": value, "output": value, **used.names}, True)
        self.pairs: list[tuple[Row, Optional[Row]]] = []
        self.open: dict[Any, int] = {}  # by process or id, the place of its open call
        self.clock = Clock()
        self.last: dict[Any, tuple[Row, Time]] = {}  # by process or id, the last event

    def take(self, row: Row) -> None:
        who = row.process if is_nothing(row.id) else ("id", row.id)
        self._look_at_time(who, row)
        word = folded(spelled(row.event))
        if word in _CALLS:
            if who in self.open:
                before = self.pairs[self.open[who]][0].line
                raise Refused(f"{spelled(row.process)} calls while its call of line {before} is open: end "
                              "that call first, or say with --columns id=NAME which column pairs a call "
                              "with its reply", row.line)
            self._refuse_filled(row, _OF_THE_END, "a call")
            self.open[who] = len(self.pairs)
            self.pairs.append((row, None))
            return
        if word not in _ENDS and word not in self.choices.outcomes:
            raise Refused(f"the event is {spelled(row.event)}, and call or invoke, reply or ok, fail or info "
                          "is expected: if it ends a call, say with --outcomes "
                          f"{shlex.quote(word + '=unknown')} what it means (or ok, or fail, if it certainly "
                          "had no effect)", row.line)
        place = self.open.pop(who, None)
        if place is None:
            raise Refused(f"{spelled(row.process)} has no open call that this could end: is the beginning of "
                          "the table missing, or are its rows not in the order of time?", row.line)
        self.pairs[place] = self.pairs[place][0], row

    def _look_at_time(self, who: Any, row: Row) -> None:
        """The rows of a client are in the order of time, or calls would be paired with other replies."""
        if row.time is ABSENT:
            return
        time = self.clock.read(row.time, row.line, self.used.name("time"))
        before = self.last.get(who)
        if before is not None:
            earlier, later = self.clock.scaled([before[1], time])
            if later < earlier:
                raise Refused(f"the time is {spelled(row.time)}, and that of line {before[0].line}, of the "
                              f"same client, {spelled(before[0].time)}: sort the rows by time", row.line)
        self.last[who] = row, time

    def _refuse_filled(self, row: Row, columns: Iterable[str], what: str) -> None:
        for column in columns:
            value = getattr(row, column)
            if not is_nothing(value):
                raise Refused(f"{self.used.name(column)} is {spelled(value)[:40]} in the row of {what}, "
                              "which has none", row.line)

    def operation(self, call: Row, end: Optional[Row]) -> Row:
        """The row of an operation. Raises Refused if the end is another operation's."""
        start = call.line if call.time is ABSENT else call.time
        asked = call.value if is_nothing(call.input) else call.input
        whole = call._replace(used=self.operations, start=start, end=None, input=asked, value=ABSENT,
                              outcome="unknown")
        if not is_nothing(call.value) and spelled(call.value) != spelled(asked):
            self._refuse_filled(call, ["value"], f"a call whose {self.used.name('input')} is "
                                                 f"{spelled(asked)}")
        if end is None:
            return whole
        for column in _OF_THE_CALL:
            mine, its = getattr(call, column), getattr(end, column)
            if not is_nothing(its) and spelled(its) != spelled(mine):
                name = self.used.name(column.rstrip("_"))
                raise Refused(f"{name} is {spelled(its)[:40]}, and that of the call at line {call.line} "
                              f"{'nothing' if is_nothing(mine) else spelled(mine)[:40]}: is it the answer to "
                              "another call?", end.line)
        return whole._replace(end=end.line if end.time is ABSENT else end.time, output=self._answer(end),
                              outcome=self._outcome(end), ok=end.ok, members=end.members, end_line=end.line)

    def _answer(self, end: Row) -> Any:
        """What was answered: the output, or the value."""
        if is_nothing(end.output) and end.value is not ABSENT:
            return end.value
        if not is_nothing(end.value) and spelled(end.value) != spelled(end.output):
            self._refuse_filled(end, ["value"], f"a reply whose {self.used.name('output')} is "
                                f"{spelled(end.output)}")
        return end.output

    def _outcome(self, end: Row) -> Any:
        """How an operation ended by its event, and by its outcome if there is one."""
        word = folded(spelled(end.event))
        outcome = self.choices.outcomes.get(word) or _ENDS[word]
        if is_nothing(end.outcome):
            return end.event if word in self.choices.outcomes else outcome or end.outcome
        told = folded(spelled(end.outcome))
        if outcome and self.choices.outcomes.get(told, told) != outcome:
            raise Refused(f"the event is {spelled(end.event)} and {self.used.name('outcome')} "
                          f"{spelled(end.outcome)}: which of them is right?", end.line)
        return end.outcome
