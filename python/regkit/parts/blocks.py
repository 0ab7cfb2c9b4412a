"""Reads a history many whole lines at a time."""
from typing import BinaryIO, Iterator

from regkit.base.limits import MAX_LINE
from regkit.history.lines import BLANK

BLOCK = 1 << 15  # bytes; four times as many took more processor time with many registers


def blocks_of(history: BinaryIO) -> Iterator[bytes]:
    """Each block ends with a whole line. Of a last line beyond the limit it has only as much as shows that
    the line is too long."""
    while True:
        block = history.read(BLOCK)
        if not block:
            return
        if not block.endswith(b"\n"):
            block += history.readline(MAX_LINE + 2)
        if not block.endswith(b"\n"):
            start = block.rfind(b"\n") + 1
            block = block[:start] + shortened(block[start:], history)
        yield block


def shortened(line: bytes, history: BinaryIO) -> bytes:
    """Reads on to the end of a long line. A blank line stays blank, and any other one stays too long."""
    rest = line
    while rest and not rest.endswith(b"\n"):
        rest = history.readline(MAX_LINE)
        if not line.strip(BLANK):
            line = line[:MAX_LINE + 2] + rest
    return line if line.endswith(b"\n") else line + rest[-1:]
