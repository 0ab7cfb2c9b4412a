"""The levels in words: what a register keeps, or a history."""
from typing import Sequence

from regkit.words.phrases import joined

WORDS = {"atomic": "linearizable", "regular": "regular", "session": "session",
         "own_writes": "read your writes", "monotonic": "monotonic reads", "sequential": "sequential",
         "causal": "causal"}


def kept_in_words(levels: Sequence[str]) -> str:
    """What a history kept that isn't linearizable."""
    return f"it keeps {in_words(levels) or 'no weaker level'}"


def in_words(levels: Sequence[str], last: str = "and") -> str:
    """`session and regular`; empty if there are none."""
    return joined([WORDS[level] for level in levels], last)
