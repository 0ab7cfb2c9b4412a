"""A source in memory as a history, for `regkit check`, `explain` and `draw` of a file of another form."""
import contextlib
import io
from typing import BinaryIO, Iterable, Iterator, NamedTuple

from regkit.convert import output, summary
from regkit.convert.edn import NotEdn
from regkit.convert.forms import Form
from regkit.convert.model import Refused
from regkit.convert.whole import convert
from regkit.convert.words import plain_choices
from regkit.history.inputs import LOOKED_AT


class Taken(NamedTuple):
    """A history that was made of a source."""

    history: bytes
    form: Form
    told: list[str]  # what the conversion says to a person


class _Whole(io.RawIOBase):
    """A stream whose beginning was read already."""

    def __init__(self, beginning: bytes, rest: BinaryIO) -> None:
        self.beginning, self.rest = io.BytesIO(beginning), rest

    def readable(self) -> bool:
        return True

    def readinto(self, buffer: "memoryview") -> int:  # type: ignore[override]
        part = self.beginning.read(len(buffer)) or self.rest.read(len(buffer))
        buffer[:len(part)] = part
        return len(part)


def beginning_of(stream: BinaryIO) -> tuple[bytes, BinaryIO]:
    """The first bytes of a source, and all of it."""
    beginning = stream.read(LOOKED_AT)
    return beginning, io.BufferedReader(_Whole(beginning, stream), 1 << 20)


@contextlib.contextmanager
def text_of(stream: BinaryIO, form: str) -> Iterator[Iterable[str]]:
    """The lines of a source. A table's rows may have line ends of any kind within quotes."""
    lines = io.TextIOWrapper(stream, encoding="utf-8-sig", newline="" if form == "csv" else "\n")
    try:
        yield lines
    finally:
        lines.detach()


def take(source: bytes, form: Form) -> Taken:
    """Converts a source as `regkit convert` does without further words. Raises Refused."""
    try:
        with text_of(io.BytesIO(source), form.name) as lines:
            converted = convert(lines, plain_choices(form.name))
    except NotEdn as error:
        raise Refused(str(error)) from error
    except ValueError as error:  # bytes that aren't UTF-8, or a number of thousands of digits
        raise Refused(f"it can't be read: {error}") from error
    out = io.StringIO()
    written = output.write_lines(output.history_lines(converted), out)
    told = [*summary.told(converted), *summary.too_large(written.lines, written.size)]
    return Taken(out.getvalue().encode("utf-8"), form, told)


def taken_for(form: Form) -> str:
    """What a source was taken for, for a person."""
    return f"taken for {form.words} (--from {form.name})"
