"""The registers' names: a text form for each key of the source, and never one name for two keys.

A key that is a text is its own name. Any other key (a number, a keyword, a vector) is named as EDN writes it:
5, :k, [1 2]. If two keys of a source would then have one name, as the number 5 and the text "5" would, every
text is named with its quotes.
"""
from typing import Iterable

from regkit.base.limits import MAX_NAME
from regkit.convert.model import Refused, SourceOperation
from regkit.convert.values import readable


def names(operations: Iterable[SourceOperation]) -> dict[str, str]:
    """The name of each key, in the order in which the keys appear."""
    first: dict[str, SourceOperation] = {}
    for operation in operations:
        if operation.key not in first:
            first[operation.key] = operation
    named = readable(first)
    for key, name in named.items():
        _refuse_unfit(name, first[key].line)
    return named


def _refuse_unfit(name: str, line: int) -> None:
    try:
        size = len(name.encode("utf-8"))
    except UnicodeEncodeError:
        raise Refused("a key has half of a surrogate pair, which is no text: rename the key in the source",
                      line) from None
    if size > MAX_NAME:
        raise Refused(f"a key's name has {size} bytes, and a register's name at most {MAX_NAME} "
                      f"({name[:40]}...): rename the key in the source, for instance by a number", line)
