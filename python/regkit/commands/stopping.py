"""How a command ends that can't do what it was asked for."""
import sys


class Stop(Exception):
    """The command can't go on, for a reason that a person has to know."""

    def __init__(self, status: int, words: str, hint: str = "") -> None:
        super().__init__(words)
        self.status = status
        self.hint = hint


def complain(command: str, words: str, status: int) -> int:
    """Says on standard error what is wrong, and gives the exit status."""
    print(f"regkit {command}: {words}", file=sys.stderr)
    return status
