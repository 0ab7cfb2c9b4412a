"""Round numbers along an axis, and how they are shown: of nanoseconds with a unit, or of events or lines."""
from typing import Iterator

UNITS = (("s", 10**9), ("ms", 10**6), ("us", 10**3), ("ns", 1))


def round_numbers() -> Iterator[int]:
    """1, 2, 5, 10, 20, 50 and so on."""
    size = 1
    while True:
        yield from (size, 2 * size, 5 * size)
        size *= 10


def round_step(length: int, most: int) -> int:
    """The least round number that fits into a length no more than `most` times."""
    return next(step for step in round_numbers() if length <= step * most)


def exact(nanoseconds: int) -> str:
    """`200 ms`, `1.5 s`, `0`: as short as the number is round."""
    if not nanoseconds:
        return "0"
    unit, size = next(((unit, size) for unit, size in UNITS if nanoseconds >= size), UNITS[-1])
    return f"{nanoseconds / size:.6g} {unit}"


def shown(number: int, is_time: bool) -> str:
    return exact(number) if is_time else f"{number:,}"


def span_of(first: int, last: int, is_time: bool, noun: str) -> str:
    """`200 ms to 500 ms`, `3 to 4 events`."""
    between = f"{shown(first, is_time)} to {shown(last, is_time)}"
    return between if is_time else f"{between} {noun}s"
