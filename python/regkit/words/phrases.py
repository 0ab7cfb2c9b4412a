"""Numbers and short texts, as all sentences have them."""
from typing import AbstractSet, Sequence


def counted(number: int, noun: str) -> str:
    """`1 read`, `2 reads`."""
    return f"{number:,} {noun}" if number == 1 else f"{number:,} {noun}s"


def joined(parts: Sequence[str], last: str = "and") -> str:
    """`a`, `a and b`, `a, b and c`."""
    return f" {last} ".join(filter(None, [", ".join(parts[:-1]), *parts[-1:]]))


def duration(nanoseconds: int) -> str:
    """`850 ns`, `12.3 us`, `49.6 ms` or `4.1 s`."""
    for unit, size in (("s", 10**9), ("ms", 10**6), ("us", 10**3)):
        if nanoseconds >= size:
            return f"{nanoseconds / size:.1f} {unit}"
    return f"{nanoseconds} ns"


def capital(sentence: str) -> str:
    return sentence[:1].upper() + sentence[1:]


# By the word of an operation that only regsearch takes, what a history has then.
SEARCHED = {"cas": "cas", "delete": "deletes", "swap": "swaps", "exists": "reads that tell only of a value"}


def for_regsearch(ops: AbstractSet[str], repeats: bool) -> str:
    """What a history has that only regsearch takes. Empty if it has nothing of that kind."""
    found = [what for op, what in SEARCHED.items() if op in ops] + (["repeated values"] if repeats else [])
    if not found:
        return ""
    return (f"the history has {joined(found)}, so it is one for regsearch; regkit check chooses the program "
            "by itself")
