"""How the commands end. docs/regkit.1 says which command ends how."""
from enum import IntEnum


class ExitStatus(IntEnum):
    """The statuses of `regcheck` and `regsearch` are the same, but they have no 5."""

    ATOMIC = 0  # linearizable, with the evidence that was asked for
    NOT_ATOMIC = 1
    REFUSED = 2
    COMMAND_LINE = 3
    FAILED = 4  # input, memory, output or the checker
    TOO_LITTLE = 5  # linearizable, with too little evidence
    UNKNOWN = 6  # the search gave up at a bound
    INTERRUPTED = 130  # as shells have it

    DONE = 0  # of commands that judge nothing
    WRONG = 1  # of `verify`: a claim doesn't hold
    TOO_LARGE = 5  # of `split`: a part, or a register
