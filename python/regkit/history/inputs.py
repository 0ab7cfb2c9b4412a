"""Reads a named file, or standard input. What gzip packed is unpacked."""
import contextlib
import errno
import gzip
import io
import sys
import zlib
from typing import BinaryIO, Iterator, Optional, cast

from regkit.base.limits import MAX_BYTES

STANDARD_INPUT = "-"
GZIP = b"\x1f\x8b"
LOOKED_AT = 65_536  # bytes of a file, by which its form is told


class TooLong(Exception):
    """The input is longer than the checker takes."""

    def __init__(self, beginning: bytes) -> None:
        super().__init__(f"input is longer than {MAX_BYTES} bytes")
        self.beginning = beginning


class _Packed(io.RawIOBase):
    """What gzip packed. Raises OSError, with words of its own, if the packed bytes are damaged."""

    def __init__(self, stream: BinaryIO, name: str) -> None:
        self.unpacked = gzip.GzipFile(fileobj=stream, mode="rb")
        self.shown = name

    def readable(self) -> bool:
        return True

    def readinto(self, buffer: "memoryview") -> int:  # type: ignore[override]
        try:
            return self.unpacked.readinto(buffer)
        except (EOFError, zlib.error, gzip.BadGzipFile) as error:
            raise OSError(errno.EIO, f"gzip can't unpack it ({error}): is it whole?", self.shown) from None


def shown_name(name: str) -> str:
    return "standard input" if name == STANDARD_INPUT else name


def unpacked(stream: BinaryIO, name: str) -> BinaryIO:
    """The stream, or what it has if that is packed by gzip."""
    peeked = stream if hasattr(stream, "peek") else io.BufferedReader(cast(io.RawIOBase, stream))
    if not cast(io.BufferedReader, peeked).peek(len(GZIP)).startswith(GZIP):
        return peeked
    return cast(BinaryIO, io.BufferedReader(_Packed(peeked, shown_name(name)), 1 << 20))


@contextlib.contextmanager
def opened(name: str) -> Iterator[BinaryIO]:
    """A file, or standard input for `-`, as a stream of bytes. Raises OSError."""
    if name == STANDARD_INPUT:
        yield unpacked(sys.stdin.buffer, name)
        return
    with open(name, "rb", buffering=1 << 20) as stream:
        yield unpacked(stream, name)


def read_stream(stream: BinaryIO, most: Optional[int]) -> bytes:
    if most is None:
        return stream.read()
    data = stream.read(most + 1)
    if len(data) > most:
        raise TooLong(data[:LOOKED_AT])
    return data


def read_input(name: str, most: Optional[int] = MAX_BYTES) -> bytes:
    """All bytes of a file, or of standard input for `-`. Raises OSError, and TooLong beyond `most`."""
    with opened(name) as stream:
        return read_stream(stream, most)
