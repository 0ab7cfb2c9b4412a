"""The verdicts in words, and the colours in which they are shown."""
from regkit.base.statuses import ExitStatus

VERDICTS: dict[int, str] = {
    ExitStatus.ATOMIC: "linearizable", ExitStatus.NOT_ATOMIC: "not linearizable",
    ExitStatus.REFUSED: "refused", ExitStatus.FAILED: "failed", ExitStatus.TOO_LITTLE: "too little evidence",
    ExitStatus.UNKNOWN: "unknown"}
STYLES: dict[int, str] = {
    ExitStatus.ATOMIC: "good", ExitStatus.NOT_ATOMIC: "bad", ExitStatus.REFUSED: "bad",
    ExitStatus.FAILED: "bad", ExitStatus.TOO_LITTLE: "look", ExitStatus.UNKNOWN: "look"}
