"""What came out of checking one history: the exit status, and words for people and for machines."""
from typing import Any, NamedTuple, Optional, Sequence

from regkit.base.statuses import ExitStatus
from regkit.checker.programs import CHECK
from regkit.checker.report import Row
from regkit.evidence.evidence import Evidence
from regkit.explain.sentences import fault_of, inversion
from regkit.history.operations import History
from regkit.words.levels import kept_in_words
from regkit.words.phrases import counted
from regkit.words.quoting import plain, quoted
from regkit.words.verdicts import VERDICTS

GRAVITY: list[int] = [  # the gravest last
    ExitStatus.ATOMIC, ExitStatus.TOO_LITTLE, ExitStatus.UNKNOWN, ExitStatus.NOT_ATOMIC,
    ExitStatus.REFUSED, ExitStatus.COMMAND_LINE, ExitStatus.FAILED]
MOST_NAMED = 6  # registers that a search gave up
NO_VERDICT = (ExitStatus.REFUSED, ExitStatus.FAILED, ExitStatus.UNKNOWN)


class Fault(NamedTuple):
    """A register that isn't atomic."""

    register: str
    row: Row
    sentences: list[str]


class Outcome(NamedTuple):
    """One history's verdict. What isn't known of it is None or empty."""

    file: str
    status: int
    words: str = ""  # what comes after the verdict, on the same line
    advice: str = ""
    evidence: Optional[Evidence] = None
    faulty: int = 0  # how many registers aren't atomic
    faults: Sequence[Fault] = ()  # as many of them as were asked for
    verified: bool = False
    drawing: str = ""
    program: str = CHECK  # which one decided
    unknown: Sequence[str] = ()  # the registers that a search gave up
    form: str = ""  # of `regkit convert`, if the file wasn't a history of our own
    told: Sequence[str] = ()  # what there is to say of that
    kept: Optional[Sequence[str]] = None  # the strongest levels that held, short of linearizable, if known
    gap: Optional[int] = None  # in events, if known


class TimedOutcome(NamedTuple):
    """An outcome, and how long it took."""

    outcome: Outcome
    seconds: float


def gravest(statuses: list[int]) -> int:
    """The status of several histories together: 4, 3, 2, 1, 6, 5, 0, whichever of these comes first."""
    return max(statuses, default=ExitStatus.ATOMIC, key=GRAVITY.index)


def evidence_in_words(evidence: Evidence, *, by_search: bool) -> str:
    """The counts. Those of the reads are exact, or there are at least this many of them. A search counts each
    cas that was answered among them."""
    reads, overlapping = evidence.completed_reads, evidence.overlapping_reads
    verb, least = "overlaps" if overlapping == 1 else "overlap", "at least " if evidence.at_least else ""
    found = f"{least}{overlapping:,} {verb} a write" if overlapping or not least else (
        "no overlap with a write counted at the beginning (--count-all counts all)")
    or_cas, searched = (" or cas", "; by search (regsearch)") if by_search else ("", "")
    return (f"{counted(evidence.operations, 'operation')} on {counted(evidence.registers, 'register')}; "
            f"{least}{counted(reads, 'completed read')}{or_cas}, {found}{searched}")


def lacks(evidence: Evidence, least_reads: int, least_overlaps: int) -> tuple[str, str]:
    """What a yes lacks, and what to do about it. Both are empty if it lacks nothing."""
    if evidence.completed_reads < least_reads:
        hint = "" if evidence.completed_reads else "did the recorder stop before the first read was answered?"
        return f"--least-reads asks for {counted(least_reads, 'completed read')}", hint
    if evidence.overlapping_reads < least_overlaps:
        return (f"--least-overlaps asks for {counted(least_overlaps, 'read')} that overlap a write",
                "let more clients use the same registers at once")
    return "", ""


def faults_of(history: History, rows: Sequence[Row]) -> list[Fault]:
    """The faults of some registers' lines of the report."""
    return [Fault(row["register"], row, fault_of(history, row) + inversion(history, row)) for row in rows]


def faults_of_search(history: History, rows: Sequence[Row]) -> list[Fault]:
    """The same of a report of regsearch."""
    from regkit.explain.searched import sentences_of  # only a fault of a search waits for this

    return [Fault(row["register"], row, sentences_of(history, row)) for row in rows]


def unknown_in_words(registers: Sequence[str]) -> str:
    """The registers that a search gave up, the first few of them by name."""
    shown = ", ".join(map(quoted, registers[:MOST_NAMED]))
    rest = len(registers) - MOST_NAMED
    return f"not decided: register{'s' if len(registers) > 1 else ''} {shown}" + (
        f", and {counted(rest, 'more register')}" if rest > 0 else "")


def text_of(outcome: Outcome) -> list[str]:
    """The lines for people that follow the first one."""
    lines = []
    for fault in outcome.faults:
        for place, sentence in enumerate(fault.sentences):
            begin = f"  register {quoted(fault.register)}: " if not place else "    "
            lines.append(begin + sentence)
    if outcome.unknown:
        lines.append(f"  {unknown_in_words(outcome.unknown)}")
    rest = outcome.faulty - len(outcome.faults)
    if rest > 0:
        lines.append(f"  and {counted(rest, 'more register')}: --most says how many are shown")
    if outcome.kept is not None:
        lines.append(f"  {kept_in_words(outcome.kept)}: `regkit levels` says more")
    if outcome.advice:
        lines.append(f"  {outcome.advice}")
    if outcome.drawing:
        lines.append(f"  drawn: {plain(outcome.drawing)}")
    return [*lines, *(f"  {plain(line)}" for line in outcome.told)]


def json_of(outcome: Outcome) -> dict[str, Any]:
    """The object for machines. docs/regkit.1 says what each key is."""
    said: dict[str, Any] = {"file": outcome.file, "status": outcome.status,
                            "verdict": VERDICTS[outcome.status]}
    if outcome.evidence is not None:
        said.update(outcome.evidence._asdict())
        said["faulty_registers"] = outcome.faulty
        said["faults"] = [{"register": register, "fault": row["fault"], "sentences": sentences}
                          for register, row, sentences in outcome.faults]
        said["verified"] = outcome.verified
        said["program"] = outcome.program
    if outcome.kept is not None:
        said["kept"] = outcome.kept
    if outcome.unknown:
        said["unknown_registers"] = outcome.unknown
    if outcome.status != ExitStatus.NOT_ATOMIC and outcome.words:
        said["reason"] = outcome.words
    if outcome.advice:
        said["advice"] = outcome.advice
    if outcome.drawing:
        said["drawing"] = outcome.drawing
    if outcome.form:
        said["form"], said["conversion"] = outcome.form, outcome.told
    return said
