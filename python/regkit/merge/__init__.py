"""Merges the histories of several recorders of one run, by the times of their events.

Values may repeat, within a history and among several, and cas stay: such a history is one for `regsearch`.

- `recorded.py`: the events of one history with their times, or the reason why it can't be merged.
- `order.py`: which event comes next, so that no precedence is added.
- `numbers.py`: the process numbers, so that no two histories share one.
"""
from typing import Iterable, NamedTuple, Sequence

from regkit.merge.numbers import Numbers
from regkit.merge.order import in_order
from regkit.merge.recorded import Recorded, Unmergeable, first_again, refuse_twice, refuse_unlike_texts

__all__ = ["Merged", "Recorded", "Unmergeable", "first_again", "merge", "merged"]


class Merged(NamedTuple):
    """A merged history."""

    lines: list[str]
    numbers: Numbers
    given_up: int  # calls that come before replies of their own file, where two files contradict each other


def merged(files: Sequence[Recorded], clock_error: int) -> Merged:
    """The history of several. Raises Unmergeable."""
    refuse_twice(files)
    refuse_unlike_texts(files)
    numbers = Numbers(files)
    lines, given_up = [], 0
    for step in in_order([file.events for file in files], clock_error):
        lines.append(f'{{"process":{numbers.number(step.file, step.event)},{step.event.rest}\n')
        given_up += step.given_up
    return Merged(lines, numbers, given_up)


def merge(histories: Iterable[tuple[str, bytes]], clock_error: int = 0) -> bytes:
    """One history of several, each with the name by which a person knows it. `clock_error` is the largest
    difference between two of their clocks at any one moment, in nanoseconds. Raises Unmergeable."""
    files = [Recorded(name, data) for name, data in histories]
    return "".join(merged(files, clock_error).lines).encode("utf-8")
