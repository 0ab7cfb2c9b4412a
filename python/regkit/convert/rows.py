"""Operations with a start and an end, whether from a table's rows or from JSON objects."""
import re
import shlex
from typing import Any, NamedTuple, Optional

from regkit.convert import versions
from regkit.convert.columns import Used
from regkit.convert.members import Known, Members, Outcomes, ok_of
from regkit.convert.model import (ANSWERED, CAS, CONDITIONAL, CREATE, DELETE_IF, DELETES, ENDINGS, NO_KEY,
                                  READS, STATED, UNASKED, WRITES, Choices, Client, Refused, Source,
                                  SourceOperation, folded)
from regkit.convert.settle import settle
from regkit.convert.spellings import spelled
from regkit.convert.timed import TimedOperations, Times
from regkit.convert.values import settled

OUTCOMES = {"ok": "ok", "fail": "fail", "unknown": "unknown", "info": "unknown", "missed": "missed", "": "ok"}
ABSENT: Any = object()  # a value that isn't there
_INTEGER = re.compile(r"\(integer\) (-?[0-9]+)")  # as redis-cli shows a number
_HALF = r"([^\s,\[\]()]+?)"
_PAIR = re.compile(rf"\s*[\[(]?\s*{_HALF}\s*(?:,|\s|->)\s*{_HALF}\s*[\])]?\s*")  # [1 2] or 1, 2 or 1->2


class Row(NamedTuple):
    """An operation as its source has it, its columns in the order of `COLUMNS`. One that isn't there is
    ABSENT."""

    line: int
    members: Members  # all that it has, by folded names, if the options may ask for any of these
    used: Used
    process: Any
    start: Any
    end: Any
    register: Any
    op: Any
    value: Any
    outcome: Any
    from_: Any  # of a cas, what it asks for
    to: Any  # and what it writes
    ok: Any  # of a cas, whether it took place
    input: Any  # what was asked, and what was answered
    output: Any
    duration: Any
    event: Any  # of a row for each event alone
    time: Any
    id: Any
    end_line: int = 0  # of the row that ended it, if that is another


class Rows:
    """Makes operations of rows."""

    def __init__(self, choices: Choices) -> None:
        self.choices = choices
        self.is_csv = choices.form == "csv"
        self.known = Known(choices, choices.form, what="column" if self.is_csv else "member")
        self.timed = TimedOperations()
        self.outcomes = Outcomes(choices)
        self.first_empty: Optional[int] = None  # the line of the first outcome that is an empty text
        self.first_ok: Optional[int] = None

    def take(self, row: Row) -> None:
        is_blank = self.is_csv and is_nothing(row.register)
        register = NO_KEY if is_blank or row.register in (None, ABSENT) else row.register
        kind = self.choices.kind_of(row.op.strip().lower() if type(row.op) is str else spelled(row.op))
        row = self._with_answer(row, kind) if self.choices.answers else row
        operation = SourceOperation(row.line, client_of(row.process, self.is_csv), kind, register, None)
        operation.ending = self._ending(row, kind)
        times = Times(_or_nothing(row.start), _or_nothing(row.end), _or_nothing(row.duration), row.used.times)
        if times.end is None and (times.start is None or times.duration is None) and (
                operation.ending in ("reply", "missed")):
            operation.ending = None
        found_nothing = self._found_nothing(operation, row.members)
        if self.choices.versions is not None:
            self._take_version(operation, row, found_nothing)
        if operation.kind in CONDITIONAL:
            self._take_cas(operation, row)
        else:
            self._refuse_cas_members(row)
            self._take_values(operation, row, found_nothing)
        self.timed.add_times(operation, times, self.choices)
        if operation.end_line is not None:
            operation.end_line = row.end_line or row.line

    def _with_answer(self, row: Row, kind: str) -> Row:
        """The row of a change with what its store answered, by --store, as its output alone. To a write that
        is all, and means nothing more."""
        number = _INTEGER.fullmatch(row.output) if type(row.output) is str else None
        row = row if number is None else row._replace(output=number[1])
        word = "" if is_nothing(row.outcome) else folded(spelled(row.outcome))
        if kind not in CONDITIONAL | DELETES | WRITES:
            return row
        if word in self.choices.answers and word not in OUTCOMES and is_nothing(row.output):
            row = row._replace(outcome=ABSENT, output=row.outcome)
        is_done = not is_nothing(row.output) and self.choices.answers.get(folded(spelled(row.output)))
        return row._replace(output=ABSENT) if kind in WRITES and is_done else row

    def _take_version(self, operation: SourceOperation, row: Row, found_nothing: bool) -> None:
        """The version that an operation asks for or found, and the one that it was answered."""
        member = self.choices.versions or ""
        given = self._version_in(member, row)
        if operation.kind in READS and operation.ending == "reply" and not found_nothing:
            self._take_found_version(operation, given, row.line)
        elif operation.kind in WRITES or operation.kind == CREATE:
            self._take_put(operation, given, row)
        elif operation.kind == DELETE_IF:
            operation.version = versions.asked(given, member, row.line)
        elif operation.kind in DELETES:
            _refuse_version(operation.kind, given, row.line)
        if operation.kind in WRITES | DELETES | {DELETE_IF} and self.choices.new_revisions is not None:
            told = self._version_in(self.choices.new_revisions, row)
            operation.told_version = versions.told(told, operation.version or 0, operation.ending,
                                                   self.choices, row.line)

    def _version_in(self, member: str, row: Row) -> Any:
        given = _or_nothing(row.members.get(member))
        return settled(given, frozenset(), True) if self.is_csv else given

    def _take_found_version(self, read: SourceOperation, given: Any, line: int) -> None:
        """The version that a read found. One that found no value needn't have any."""
        if given is not None or "value" in self.choices.ignored:
            read.version = versions.found(given, self.choices.versions or "", line)

    def _take_put(self, put: SourceOperation, given: Any, row: Row) -> None:
        """The version that a put asks for: perhaps none with new_revisions. To create is to ask for 0."""
        asked = 0 if put.kind == CREATE and given is None else given
        if asked is not None or self.choices.new_revisions is None:
            put.version = versions.asked(asked, self.choices.versions or "", row.line)
        put.kind = "write"
        if put.ending == "reply" and not self._says_ok(row):
            raise Refused("the row of a put by version doesn't say whether it took place: write ok, "
                          "missed, fail or unknown as its outcome", row.line)

    def _take_values(self, operation: SourceOperation, row: Row, found_nothing: bool) -> None:
        """What a read or a write asked, and what it was answered."""
        is_read, answers = operation.kind in UNASKED, operation.kind in ANSWERED
        if row.used.is_plain and (is_read or not answers) and (row.value is not ABSENT or not is_read):
            asked = answer = row.value
        elif is_read:
            asked, answer = ABSENT, self._agreed(row, "output", "value")
            self._refuse_unused(row, "input", [row.register, answer])
        else:
            asked, answer = self._agreed(row, "input", "value"), row.output
            answers = answers or operation.kind in DELETES
            if operation.kind in STATED:
                self._refuse_unused(row, "output", [asked])
        is_lacking = operation.kind in ANSWERED and answer is ABSENT and not found_nothing
        if is_lacking and operation.ending == "reply":
            column = "value" if is_read else "output"
            kind = "read" if operation.kind in READS else operation.kind
            raise Refused(f"a {kind} without {row.used.name(column)}: write null if it found none, or say "
                          f"which {self.known.what} has what was answered with --columns {column}=NAME",
                          row.line)
        operation.value = None if is_read else _or_none(asked)
        told = answers or operation.kind in UNASKED
        operation.answer = _or_none(answer) if told and not found_nothing else None

    def _agreed(self, row: Row, *columns: str) -> Any:
        """What the columns have that may say a value. Raises Refused if two differ."""
        values = [(column, getattr(row, column)) for column in columns if getattr(row, column) is not ABSENT
                  and folded(row.used.name(column)) not in self.choices.ignored]
        said = [(column, value) for column, value in values if not is_nothing(value)]
        for column, value in said[1:]:
            if spelled(value) != spelled(said[0][1]):
                raise Refused(f"{row.used.name(said[0][0])} is {spelled(said[0][1])[:40]} and "
                              f"{row.used.name(column)} {spelled(value)[:40]}: say with --ignore-member "
                              "which of them means nothing", row.line)
        found = said or values
        return found[0][1] if found else ABSENT

    def _refuse_unused(self, row: Row, column: str, used: list[Any]) -> None:
        """Raises Refused for a value that isn't used, unless it is one of those that are."""
        value, name = getattr(row, column), row.used.name(column)
        if is_nothing(value) or self.choices.explains(folded(name)) or (
                spelled(value) in {*self.choices.nulls, *map(spelled, filter(is_there, used))}):
            return
        if column == "output":
            what = f"--ok-when {name}=WORD,.. with the words in it by which the operation took place"
        else:
            what = f"--columns register={name} if it is the key"
        raise Refused(f"{name} is {spelled(value)[:40]}, which isn't understood here: say {what}, or "
                      f"--ignore-member {name} if it means nothing", row.end_line or row.line)

    def _found_nothing(self, operation: SourceOperation, members: Members) -> bool:
        """Ends an operation as --ok-when says, and tells whether it is a read that found no value."""
        if operation.ending == "reply":
            operation.ending, found_nothing = self.outcomes.of(members, operation.kind in ANSWERED)
            return found_nothing
        return False

    def _take_cas(self, operation: SourceOperation, row: Row) -> None:
        """Gives a cas its two values, and its ending by `ok` or its output. To create is a cas from null."""
        line, (name, told) = row.line, self._told(row)
        operation.value = self._halves(operation.kind, row)
        operation.kind = CAS if operation.kind == CREATE else operation.kind
        is_said = operation.ending is None and self.outcomes.say(row.members)  # by --ok-when
        if is_said or self.choices.explains(folded(name)):
            told = ABSENT
        took_place = ok_of(told)
        if took_place is None and not is_nothing(told):
            took_place = self.choices.answers.get(folded(spelled(told)))
        if took_place is None and not is_nothing(told):
            raise Refused(f"{name} is {spelled(told)[:40]}, and true or false is expected, whether the cas "
                          f"took place: or say --ok-when {name}=WORD,.. with the words by which it did", line)
        if took_place and operation.ending != "reply":
            raise Refused(f"{name} is true, and the outcome is another: did the cas take place or not?", line)
        if took_place is None and operation.ending == "reply" and not self._says_ok(row):
            raise Refused("the row of a cas doesn't say whether it took place: write true or false in "
                          f"{name}, or ok, missed, fail or unknown as its outcome", line)
        if took_place is False and operation.ending == "reply":
            operation.ending = "missed"

    def _told(self, row: Row) -> tuple[str, Any]:
        """Which column says whether a cas took place, and what it says."""
        told = is_nothing(row.ok) and not is_nothing(row.output)
        is_repeated = is_there(row.input) and spelled(row.output) == spelled(row.input)
        if told and (not is_repeated or folded(spelled(row.output)) in self.choices.answers):
            return row.used.name("output"), row.output
        self._refuse_unused(row, "output", [row.ok, row.input])
        return row.used.name("ok"), row.ok

    def _halves(self, kind: str, row: Row) -> Any:
        """What a cas asks for and what it writes: from its own columns, or both from what was asked. Of an
        operation with one value, that."""
        if kind == CREATE:
            return None, self._agreed(row, "to", "input", "value")
        if kind != CAS:
            return self._half(kind, row)
        if row.from_ is ABSENT or row.to is ABSENT:
            asked = self._agreed(row, "input", "value")
            if type(asked) is list and len(asked) == 2:
                return asked[0], asked[1]
            pair = _PAIR.fullmatch(asked) if type(asked) is str else None
            if pair is None:
                raise Refused("a cas has from and to: say which they are with --columns from=NAME,to=NAME",
                              row.line)
            return pair[1], pair[2]
        for column in ("value", "input"):
            value, name = getattr(row, column), row.used.name(column)
            if not is_nothing(value) and not self.choices.explains(folded(name)):
                raise Refused(f"a cas has from and to, and no {name}, but this is "
                              f"{spelled(value)[:40]}", row.line)
        return row.from_, row.to

    def _half(self, kind: str, row: Row) -> Any:
        """The one value that an operation asks for or writes."""
        said, other = (row.from_, row.to) if kind == DELETE_IF else (row.to, row.from_)
        if not is_nothing(other):
            raise Refused(f"a {kind} has one value, and this row has {row.used.name('from')} and "
                          f"{row.used.name('to')}: is it a cas?", row.line)
        value = said if not is_nothing(said) else self._agreed(row, "input", "value")
        return None if is_nothing(value) else value

    def _says_ok(self, row: Row) -> bool:
        """Whether the outcome of a row, or a member by --ok-when, says by a word that all went well."""
        word = "" if is_nothing(row.outcome) else spelled(row.outcome).strip()
        return bool(word) or "" in self.choices.outcomes or self.outcomes.say(row.members)

    def _refuse_cas_members(self, row: Row) -> None:
        """A read and a write have nothing in the columns of a cas, unless the options say what it means."""
        if row.from_ is ABSENT and row.to is ABSENT and row.ok is ABSENT:
            return
        strange = {row.used.name(column): value
                   for column, value in (("from", row.from_), ("to", row.to), ("ok", row.ok))
                   if not is_nothing(value) and not self.choices.explains(folded(row.used.name(column)))}
        self.known.refuse(strange, list(strange), row.line)

    def _ending(self, row: Row, kind: str) -> Optional[str]:
        """How an operation ended by its outcome; without one all went well."""
        outcome = _or_none(row.outcome)
        word = "" if outcome is None else spelled(outcome).strip()
        if self.choices.outcomes and folded(word) in self.choices.outcomes:
            return ENDINGS[self.choices.outcomes[folded(word)]]
        if word.lower() not in OUTCOMES:
            raise Refused(f"the outcome is {word}, and ok, fail, unknown or info is expected, or missed: say "
                          f"what it means with --outcomes {shlex.quote(word + '=unknown')} (or ok, or fail, "
                          "if it certainly had no effect), or which column is the outcome with --columns "
                          "outcome=NAME", row.line)
        if outcome is not None and not word:
            self.first_empty = self.first_empty or row.line
        elif word.lower() == "ok":
            self.first_ok = self.first_ok or row.line
        return self.choices.failure_of(kind) if word.lower() == "fail" else ENDINGS[OUTCOMES[word.lower()]]

    def source(self) -> Source:
        if self.first_empty and self.first_ok:
            raise Refused(f"the outcome is empty, and at line {self.first_ok} it is ok: say --outcomes =ok "
                          "if empty means ok too, or --outcomes =unknown", self.first_empty)
        source = self.timed.source(self.choices)
        source.notes.extend(self.outcomes.notes())
        settle(source, self.choices)
        return source


def _refuse_version(kind: str, given: Any, line: int) -> None:
    """Raises Refused if a delete that asks for no version has one."""
    if given is not None:
        raise Refused(f"a {kind} has the version {spelled(given)[:40]}: say --ops WORD={DELETE_IF} if it "
                      "deletes this version alone, or leave the version out", line)


def _or_none(value: Any) -> Any:
    return None if value is ABSENT else value


def _or_nothing(value: Any) -> Any:
    return None if is_nothing(value) else value


def is_there(value: Any) -> bool:
    return value is not ABSENT


def is_nothing(value: Any) -> bool:
    return value is ABSENT or value is None or (type(value) is str and not value.strip())


def client_of(process: Any, is_text: bool) -> Client:
    """A client by its number or its name; in a table of texts a name that spells a number is that number."""
    if type(process) is str:
        name = process.strip() if is_text else process
        known = settled(name, frozenset(), is_text)
        return known if type(known) is int else name
    known = settled(process, frozenset())
    return "null" if known is None else known
