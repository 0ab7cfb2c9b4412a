"""Colour on a terminal. Each colour goes with a sign or a word, so that nothing is said by colour alone."""
import os
from typing import TextIO

CODES = {"bold": "1", "faint": "2", "bad": "1;31", "good": "32", "look": "33"}
CHOICES = ["auto", "always", "never"]


class Painter:
    """Puts text in a colour, or leaves it as it is."""

    def __init__(self, on: bool) -> None:
        self.on = on

    def __call__(self, style: str, text: str) -> str:
        return f"\x1b[{CODES[style]}m{text}\x1b[0m" if self.on and style else text


def painter(choice: str, stream: TextIO) -> Painter:
    """`auto` means: on a terminal, unless NO_COLOR is set or the terminal is `dumb`."""
    if choice != "auto":
        return Painter(choice == "always")
    plain = os.environ.get("NO_COLOR") or os.environ.get("TERM") == "dumb"
    return Painter(stream.isatty() and not plain)
