"""The columns of a table, and the members of an object: what each is called, and which of them are used."""
from typing import Iterable, Iterator, Mapping, NamedTuple, Optional

from regkit.convert.model import Refused, WrongWords, folded

PLAIN_COLUMNS = ("process", "start", "end", "register", "op", "value", "outcome")
CAS_COLUMNS = ("from", "to", "ok")  # which only a cas has
WRITTEN = PLAIN_COLUMNS + CAS_COLUMNS  # those that `regkit convert --to` writes
EVENT_COLUMNS = ("event", "time", "id")  # of a row for each event
# `input` and `output` are what was asked and what was answered, in place of `value` or beside it.
COLUMNS = (*WRITTEN, "input", "output", "duration", *EVENT_COLUMNS)
_DURATIONS = tuple(f"{name}{unit}" for name in ("duration", "latency", "elapsed")
                   for unit in ("", "_ns", "_us", "_ms", "_s"))
# Other names of a column.
_ALSO = {"process": ("client",), "register": ("key", "k"), "event": ("type",), "op": ("f",),
         "duration": _DURATIONS}


class Source(NamedTuple):
    """What names its columns, in words."""

    whole: str  # the header or the object
    part: str  # a column or a member


HEADER, OBJECT = Source("header", "column"), Source("object", "member")


class Used(NamedTuple):
    """The columns that a source has and that are used, each with its name there."""

    names: dict[str, str]
    is_events: bool  # whether a row is an event, and not an operation
    times: tuple[str, str, str]  # what start, end and duration are called
    is_plain: bool  # whether `value` alone says what was asked and answered

    def name(self, column: str) -> str:
        """The name of a column in the source, or the one that it would have."""
        return self.names.get(column, column)


def columns(words: Optional[str]) -> dict[str, str]:
    """The source's name of each column, by `--columns process=NAME,..`. Raises WrongWords.

    A name that is given to one column is that of no other.
    """
    given: dict[str, str] = {}
    for word in (words or "").split(",") if words else []:
        column, equals, name = word.partition("=")
        if column not in COLUMNS or not equals or not name:
            raise WrongWords(f"--columns {word}: COLUMN=NAME is expected, with one of {', '.join(COLUMNS)}")
        given[column] = name
    taken = set(map(folded, given.values()))
    return {column: given.get(column, column) for column in COLUMNS
            if column in given or column not in taken}


def known_columns(names: Iterable[str]) -> int:
    """How many of some names are those of columns."""
    return len({*COLUMNS, *(name for others in _ALSO.values() for name in others)} & set(map(folded, names)))


def used_columns(names: Iterable[str], named: Mapping[str, str], source: Source, line: int) -> Used:
    """Which columns a source has. Raises Refused if one that it needs isn't there, or is there twice.

    Of `start`, `end` and `duration` two are used. A row of a table that has neither a start nor an end, but
    an event, is that of an event.
    """
    held = list(names)
    found = _found(held, named)
    is_events = source is HEADER and "event" in found and (
        named["event"] != "event" or not {"start", "end"} & found.keys())
    is_timed = not is_events and "duration" in found and not {"start", "end"} <= found.keys()
    unused = ["start", "end", "duration"] if is_events else list(EVENT_COLUMNS)
    unused += [] if is_timed else ["duration"]
    used = {column: name for column, name in found.items() if column not in unused}
    for column in _needed(used, named, source, is_events):
        if column not in used:
            raise Refused(missing(column, named, held, source), line)
    folds = [folded(name) for name in held]
    for name in used.values():
        if folds.count(folded(name)) > 1:
            raise Refused(f"the {source.whole} has {name} twice: rename one of them", line)
    return used_as(used, is_events)


def used_as(names: dict[str, str], is_events: bool) -> Used:
    """The columns that are used, by their names."""
    start, end, duration = (names.get(column, column) for column in ("start", "end", "duration"))
    return Used(names, is_events, (start, end, duration), not {"input", "output"} & names.keys())


def _found(names: list[str], named: Mapping[str, str]) -> dict[str, str]:
    """By column, its name in the source, in any case. A column that `--columns` names has no other name."""
    by_fold = {folded(name): name for name in reversed(names)}
    taken = {folded(name) for column, name in named.items() if name != column}
    found = {}
    for column, name in named.items():
        also = _ALSO.get(column, ()) if name == column else ()
        for fold in [folded(name), *(other for other in also if other not in taken)]:
            if fold in by_fold and column not in found:
                found[column] = by_fold[fold]
    return found


def _needed(used: Mapping[str, str], named: Mapping[str, str], source: Source,
            is_events: bool) -> Iterator[str]:
    """The columns without which nothing can be said: those of `--columns`, and who, when and what."""
    yield "process"
    if is_events:
        yield "event"
    else:
        yield "start" if "end" not in used or "duration" not in used else "end"
    if source is HEADER:
        yield from ("end",) if not is_events and "duration" not in used else ()
        yield from (column for column, name in named.items() if name != column)
    yield "op"
    if source is HEADER and not {"input", "output", "to"} & used.keys():
        yield "value"


def missing(column: str, named: Mapping[str, str], names: Iterable[str], source: Source) -> str:
    """What to do about a column that isn't there."""
    held = list(names)
    option = f"which {source.part} is the {column} with --columns {column}=NAME"
    if source is HEADER and len(held) == 1:
        option = "what stands between its fields with --delimiter C"
    elif column == "end":
        option += ", or which is the duration with --columns duration=NAME"
    elif named[column] != column and column in ("start", "end", "duration", *EVENT_COLUMNS):
        option = ("of each row start and end, or one of them and duration, or event and time: the other "
                  f"columns don't go with {column}")
    return (f"the {source.whole} has no {named[column]}, but {', '.join(held) or 'nothing'}: say {option}")
