"""A file of another form than a history's own: what it is taken for, and the history that it becomes."""
from typing import NamedTuple, Optional, Sequence

from regkit.base.statuses import ExitStatus
from regkit.checker.programs import Answer, decide, is_for_search
from regkit.checker.refusals import read_refusal
from regkit.history.inputs import LOOKED_AT

_OF_FORM = frozenset({1, 2, 3, 4, 5, 6, 7, 8, 20})  # the refusals of a line that may be of another form
_OF_VALUES = frozenset({2, 3, 4, 6, 8, 20})  # and of events with other values, or in one array

_MORE = "to say more of it: `regkit convert OPTIONS.. {file} | regkit {command}`"
_LINES = "lines are counted in the history that `regkit convert` makes of it"


class Taken(NamedTuple):
    """The history that a file became, and what there is to say of that."""

    history: bytes
    form: str  # of `regkit convert --from`
    told: Sequence[str]


class NotTaken(Exception):
    """A file of another form that can't become a history without further words. `hint` says where to say
    them, with a place for the file and one for the command."""

    def __init__(self, words: str, hint: str = "") -> None:
        super().__init__(words)
        self.hint = hint


class Decided(NamedTuple):
    """A history with the answer to it."""

    history: bytes
    answer: Answer
    told: Sequence[str] = ()  # what there is to say of the file, if it had another form


def decide_any(data: bytes, options: Sequence[str]) -> Decided:
    """The answer to the history in a file of any form. The options are regsearch's. Raises NotTaken."""
    answer = decide(data, options)
    taken = taken_of(data, answer)
    return Decided(data, answer) if taken is None else Decided(taken.history, decide(taken.history, options),
                                                               taken.told)


def taken_of(data: bytes, answer: Answer) -> Optional[Taken]:
    """The history that a refused file becomes if it has another form; None if it has none, or its own.

    Events are taken if they have other names and values alone: whatever else is wrong with one, the refusal
    of the checker says better. Raises NotTaken."""
    refusal = None if answer.status != ExitStatus.REFUSED else read_refusal(answer.refusal)
    if refusal is None or refusal.number not in _OF_FORM or is_for_search(data, answer):
        return None
    from regkit.convert import forms, taking  # only a refused history waits for this
    from regkit.convert.model import Refused

    try:
        found = forms.forms_of(data[:LOOKED_AT])
        if not found or (found == [forms.EVENTS] and refusal.number not in _OF_VALUES):
            return None
    except Refused as error:
        raise NotTaken(str(error)) from error
    form = found[0]
    try:
        taken = taking.take(data, forms.one_of(found))
    except Refused as error:
        if found == [forms.EVENTS]:
            return None
        words = f"{taking.taken_for(form)}, and {error}" if len(found) == 1 else str(error)
        raise NotTaken(words, _MORE) from error
    return Taken(taken.history, form.name, [taking.taken_for(form), *taken.told, _LINES])


def hint_of(error: NotTaken, name: str, command: str) -> str:
    """How to say more of a file that wasn't taken; empty if that wouldn't help."""
    from regkit.explain.looks import shell_name

    return error.hint.format(file=shell_name(name), command=command)
