"""The values that a store gave, and those that a caller writes, as a history has them."""
import re
from typing import Optional

from regkit.base.limits import GREATEST_VALUE, LEAST_VALUE
from regkit.recording.journal import RecordingError

WHOLE_NUMBER = re.compile(r"-?[0-9]{1,19}")


def number_of(value: object) -> Optional[int]:
    """What the store gave, as the history has it. Raises RecordingError if it is no value of a register."""
    text = value.decode("utf-8", "replace") if isinstance(value, (bytes, bytearray)) else value
    number = int(text) if isinstance(text, str) and WHOLE_NUMBER.fullmatch(text) else value
    # True and False are no numbers here, though Python takes them for such.
    if number is None or type(number) is int and LEAST_VALUE <= number <= GREATEST_VALUE:
        return number
    raise RecordingError(f"the store gave {value!r}, but a value is a whole number of 64 bits, "
                         "its text or bytes, or None")


def chosen(value: object) -> int:
    """A value that the caller lets a call write. Raises RecordingError if it is none."""
    if type(value) is int and LEAST_VALUE <= value <= GREATEST_VALUE:
        return value
    raise RecordingError(f"{value!r} can't be written: a value is a whole number of 64 bits")


def member(value: Optional[int]) -> str:
    return "null" if value is None else str(value)
