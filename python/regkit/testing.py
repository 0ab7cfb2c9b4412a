"""Assertions about recorded histories, for unittest, pytest, or a plain script.

    recorder = Recorder()
    ...
    assert_atomic(recorder)  # or assert_level(recorder, "session")
"""
import os
import pathlib
import re
import tempfile
from typing import Optional, Sequence, Union

from regkit.base.statuses import ExitStatus
from regkit.checker.bounds import bounds
from regkit.checker.levels import DISTINCT, REQUIRED, Levels, levels_in
from regkit.checker.programs import (Answer, NoChecker, decide, is_for_search, judge_levels,
                                     with_search_hint)
from regkit.checker.report import read_report
from regkit.evidence.evidence import Evidence, count_evidence
from regkit.history.operations import read_history
from regkit.judging.failures import program_failure
from regkit.record import Recorder, RecordingError
from regkit.words.levels import WORDS
from regkit.words.phrases import counted

Recorded = Union[Recorder, bytes, str, "os.PathLike[str]"]


class NotAtomic(AssertionError):
    """The history isn't atomic: no order of its operations explains what the clients saw."""


class NotKept(AssertionError):
    """Some register of the history, or the whole of it, doesn't keep the level that was asked for."""


class TooLittleEvidence(AssertionError):
    """The history is as it should be, but too few reads were completed, or overlapped a write."""


class NotChecked(Exception):
    """The checker gave no verdict: it refused the history, its search gave up, or it failed."""


def assert_atomic(history: Recorded, *, least_reads: int = 1, least_overlaps: int = 0,
                  steps: Optional[int] = None, configurations: Optional[int] = None) -> Evidence:
    """Raises AssertionError, with an explanation, unless the history is atomic with enough evidence.

    The history is a Recorder, bytes, or a path. It needs at least `least_reads` completed reads, of which at
    least `least_overlaps` overlap a write: a history that proves nothing, say since its recorder died, fails
    too. A cas that was answered counts as a read. Gives the evidence.

    A history in which values repeat, or with cas, deletes or swaps, is decided by regsearch, within `steps`
    and `configurations` (by default its own bounds). Raises NotChecked if there is no verdict, as when that
    search gives up, and RecordingError if the recorder was used wrongly."""
    __tracebackhide__ = True  # pytest then shows the test's own line
    _trust(history)
    data, path = _data(history), _path(history)
    name = str(path) if path else "the history"
    options = bounds(steps, configurations)
    answer = decide(data, options)
    if answer.status not in (ExitStatus.ATOMIC, ExitStatus.NOT_ATOMIC):
        raise NotChecked(f"{name}: {_without_verdict(data, answer)}")
    if answer.status == ExitStatus.NOT_ATOMIC:
        raise NotAtomic(_not_atomic(data, answer, path, options))
    return _enough(f"{name}: linearizable", data, least_reads, least_overlaps)


def assert_level(history: Recorded, level: str, *, least_reads: int = 1, least_overlaps: int = 0) -> Evidence:
    """Raises AssertionError, in the words of `regkit levels`, unless each register of the history keeps a
    level, with enough evidence.

    The level is one of atomic, regular, session, own_writes, monotonic and sequential, or causal, which is of
    all registers together: docs/levels.md explains them. The history, the evidence and the mistakes are as in
    `assert_atomic`. reglevel decides, or the library in its place, and takes the histories that regcheck
    takes. Raises NotChecked if it gives no answer or doesn't know, and NoChecker if it isn't there."""
    __tracebackhide__ = True
    if level not in REQUIRED:
        raise ValueError(f"{level!r} is no level: it is one of {', '.join(REQUIRED)}")
    _trust(history, level)
    data, path = _data(history), _path(history)
    name = str(path) if path else "the history"
    try:
        words = _not_kept(data, level)
    except NotChecked as error:
        raise NotChecked(f"{name}: {error}") from error
    if words:
        raise NotKept(f"{words}\n\n{_how_to_see(_file_of(data, path))}")
    return _enough(f"{name}: keeps {WORDS[level]}", data, least_reads, least_overlaps)


def explanation(history: bytes, report: bytes, options: Sequence[str] = ()) -> str:
    """Why a history isn't atomic, as `regkit explain` says it. The options are those of regsearch."""
    from regkit.explain.explanation import explain_text  # only a test that fails needs it

    return explain_text(history, report, options)


def verdict(recorder: Recorder, level: Optional[str] = None) -> str:
    """What there is to say of a test's history, whatever it is: of the level that the test asked for, if it
    asked for one."""
    if recorder.mistakes:
        return f"the recorder was used wrongly: {recorder.mistakes[0]}"
    data = recorder.history()
    try:
        return _level_verdict(data, level) if level in REQUIRED else _atomic_verdict(data)
    except (NoChecker, NotChecked) as error:
        return str(error)


def _atomic_verdict(data: bytes) -> str:
    answer = decide(data)
    if answer.status == ExitStatus.ATOMIC:
        return f"linearizable: {_evidence_in_words(data)}"
    if answer.status == ExitStatus.NOT_ATOMIC:
        return explanation(data, answer.report)
    return _without_verdict(data, answer)


def _level_verdict(data: bytes, level: str) -> str:
    """Raises NotChecked."""
    return _not_kept(data, level) or f"keeps {WORDS[level]}: {_evidence_in_words(data)}"


def _evidence_in_words(data: bytes) -> str:
    evidence = count_evidence(read_history(data))
    return (f"{counted(evidence.operations, 'operation')}; "
            f"{counted(evidence.completed_reads, 'completed read')}, "
            f"{evidence.overlapping_reads:,} overlap a write")


def keep(recorder: Recorder, directory: "os.PathLike[str]", test: str) -> pathlib.Path:
    """Copies a history to a file named after its test, for a person to look at."""
    path = pathlib.Path(directory) / (re.sub(r"[^A-Za-z0-9._-]+", "_", test)[-200:] + ".jsonl")
    path.parent.mkdir(parents=True, exist_ok=True)
    path.write_bytes(recorder.history())
    return path


def _trust(history: Recorded, level: Optional[str] = None) -> None:
    """Raises RecordingError if the recorder knows of a mistake: what was recorded around it may be wrong."""
    if not isinstance(history, Recorder):
        return
    history.checked, history.level = True, level
    mistakes = history.mistakes
    if mistakes:
        count = f", {len(mistakes)} times" if len(mistakes) > 1 else ""
        raise RecordingError(f"the recorder was used wrongly{count}: {mistakes[0]}") from mistakes[0]


def _data(history: Recorded) -> bytes:
    if isinstance(history, Recorder):
        return history.history()
    return history if isinstance(history, bytes) else pathlib.Path(history).read_bytes()


def _path(history: Recorded) -> Optional[pathlib.Path]:
    if isinstance(history, Recorder):
        return history.path
    return None if isinstance(history, bytes) else pathlib.Path(history)


def _enough(said: str, data: bytes, least_reads: int, least_overlaps: int) -> Evidence:
    """The evidence of a history of which something good is said. Raises TooLittleEvidence."""
    evidence = count_evidence(read_history(data))
    reads, overlaps = evidence.completed_reads, evidence.overlapping_reads
    for least, seen, what in [(least_reads, reads, "completed reads"),
                              (least_overlaps, overlaps, "completed reads that overlap a write")]:
        if seen < least:
            raise TooLittleEvidence(f"{said}, but that rests on {seen} {what}; the least is {least}")
    return evidence


def _without_verdict(data: bytes, answer: Answer) -> str:
    """Why there is no verdict."""
    if answer.status == ExitStatus.UNKNOWN:
        from regkit.explain.searched import what_to_do  # only a search that gave up needs it

        unknown = read_report(answer.report).unknown
        return f"unknown: the search gave up; {what_to_do(unknown, dashes='')}"
    return with_search_hint(answer.refusal, data, answer)


def _not_atomic(data: bytes, answer: Answer, path: Optional[pathlib.Path], options: Sequence[str]) -> str:
    """The explanation, and how to see the history drawn."""
    report = read_report(answer.report)
    return (f"not linearizable: {len(report.faulty):,} of {counted(len(report.rows), 'register')}\n\n"
            f"{explanation(data, answer.report, options)}\n\n{_how_to_see(_file_of(data, path), options)}")


def _file_of(data: bytes, path: Optional[pathlib.Path]) -> pathlib.Path:
    """The history's file. It goes to one if it isn't in one."""
    if path is not None:
        return path
    handle, name = tempfile.mkstemp(prefix="regkit-", suffix=".jsonl")
    with os.fdopen(handle, "wb") as file:
        file.write(data)
    return pathlib.Path(name)


def _how_to_see(path: pathlib.Path, options: Sequence[str] = ()) -> str:
    return f"to see it: {' '.join(['python3 -m regkit draw', *options])} {path} -o fault.html"


def _not_kept(data: bytes, level: str) -> str:
    """Why a history doesn't keep a level, as `regkit levels` says it; empty if it does. Raises NotChecked."""
    answer = judge_levels(data, level, stale=True)
    if not answer.decided:
        raise NotChecked(_without_levels(data, answer))
    try:
        levels = levels_in(answer, level)
        if answer.status == ExitStatus.UNKNOWN:
            raise NotChecked(_unknown())
        return _account(data, levels, level) if answer.status == ExitStatus.NOT_ATOMIC else ""
    except (KeyError, TypeError, ValueError, IndexError) as error:
        raise NotChecked(f"the answer of reglevel is wrong: {error}") from error


def _without_levels(data: bytes, answer: Answer) -> str:
    """Why there is no answer about a level."""
    if answer.status != ExitStatus.REFUSED:
        return program_failure(answer)
    return f"{answer.refusal}; {DISTINCT}" if is_for_search(data, answer) else answer.refusal


def _account(data: bytes, levels: Levels, level: str) -> str:
    """What a history kept."""
    from regkit.levels.account import account, heading, required  # only a test that fails needs these
    from regkit.levels.subject import Places, Subject

    history = read_history(data)
    subject = Subject(history, levels, Places(data, history))
    return "\n".join([heading(levels.summary), required(levels, level), *account(subject)])


def _unknown() -> str:
    """That reglevel gave up, as it may on causal."""
    from regkit.levels.causal import UNKNOWN

    return UNKNOWN
