"""Checks one history, from the name of its file to its outcome."""
from typing import NamedTuple, Optional, Sequence

from regkit.base.garbage import many_objects
from regkit.base.statuses import ExitStatus
from regkit.checker.programs import SEARCH, Answer, NoChecker, begin, judge, searched
from regkit.checker.report import Report
from regkit.evidence.evidence import Evidence
from regkit.history.inputs import TooLong, read_input, shown_name
from regkit.history.operations import NotAHistory
from regkit.history.texts import Contradictory, refuse_contradictory
from regkit.judging.failures import advice, file_failure, program_failure, refusal_advice
from regkit.judging.other_forms import NotTaken, hint_of, taken_of
from regkit.judging.outcome import Outcome, evidence_in_words, lacks
from regkit.judging.pages import Pages
from regkit.judging.reads import enough_evidence, first_evidence, whole_evidence
from regkit.judging.settings import CheckSettings
from regkit.judging.trust import (Kept, Untrue, check_status, faults_in, levels_kept, unknown_advice,
                                  verdict_in, verify_refusal, verify_report)
from regkit.words.phrases import counted
from regkit.words.progress import Progress
from regkit.words.quoting import plain

BUG = "don't trust it, and keep the history: this is a bug of regcheck, regsearch or regkit"


class Subject(NamedTuple):
    """One history, and what is asked of it."""

    name: str  # of its file
    label: str  # by which the progress bar names it
    data: bytes
    settings: CheckSettings
    progress: Progress

    def step(self, what: str, total: int = 0) -> None:
        """Tells a person what is done now."""
        self.progress.step(f"{self.label}: {what}", total)


def judge_file(name: str, label: str, settings: CheckSettings, progress: Progress) -> Outcome:
    """The outcome of one file. Whatever fails is the outcome of this file alone."""
    try:
        subject = Subject(name, label, read_input(name), settings, progress)
        subject.step("checking")
        with many_objects():
            return outcome_of(subject)
    except TooLong as error:
        return Outcome(name, ExitStatus.REFUSED, str(error), advice(error.beginning, str(error), name))
    except OSError as error:
        return Outcome(name, ExitStatus.FAILED, plain(file_failure(name, error)))
    except Contradictory as error:
        return Outcome(name, ExitStatus.REFUSED, plain(str(error)))
    except MemoryError:
        hint = "check parts of it: `regkit split` makes them"
        return Outcome(name, ExitStatus.FAILED, "no memory", hint)
    except (NoChecker, NotAHistory) as error:
        return Outcome(name, ExitStatus.FAILED, plain(str(error)))


def outcome_of(subject: Subject) -> Outcome:
    """The outcome of a history. It fails if the answer can't be true."""
    answer, found = ask(subject)
    try:
        taken = taken_of(subject.data, answer)
        if taken is None:
            return outcome_by(subject, answer, found)
        subject = subject._replace(data=taken.history)
        answer, found = ask(subject)
        return outcome_by(subject, answer, found)._replace(form=taken.form, told=taken.told)
    except NotTaken as error:
        hint = hint_of(error, subject.name, "check")
        return Outcome(subject.name, ExitStatus.REFUSED, plain(str(error)), hint)
    except Untrue as error:
        words = f"the answer of {answer.program} is wrong: {plain(str(error))}"
        return Outcome(subject.name, ExitStatus.FAILED, words, BUG)


def ask(subject: Subject) -> tuple[Answer, Optional[Evidence]]:
    """The answer of the program that takes the history, and its first evidence, counted meanwhile."""
    data, settings = subject.data, subject.settings
    early = settings.first and settings.pages is None  # a picture needs the whole report
    with begin(data, ["--first"] if early else []) as run:
        found = first_evidence(data, settings)
        answer = run.answer()
    if early and answer.status == ExitStatus.COMMAND_LINE:  # a checker that doesn't know `--first`
        answer = judge(data)
    return searched(data, answer, settings.bounds), found


def outcome_by(subject: Subject, answer: Answer, found: Optional[Evidence]) -> Outcome:
    """The outcome by an answer. Raises Untrue."""
    name, data = subject.name, subject.data
    if answer.decided:
        refuse_contradictory(data)
        return outcome_by_report(subject, answer, found)
    if answer.status != ExitStatus.REFUSED:
        return Outcome(name, ExitStatus.FAILED, program_failure(answer), advice(b"", answer.refusal, name))
    if subject.settings.verify:
        verify_refusal(data, answer)
    return Outcome(name, ExitStatus.REFUSED, plain(answer.refusal), refusal_advice(data, answer, name))


def outcome_by_report(subject: Subject, answer: Answer, found: Optional[Evidence]) -> Outcome:
    """The outcome of a history that was accepted. Raises Untrue."""
    data, settings = subject.data, subject.settings
    report = verdict_in(answer)
    unsearched = 0
    if settings.verify:
        subject.step("verifying")
        unsearched = verify_report(data, answer)
    evidence = (enough_evidence(answer, found, settings)
                or whole_evidence(data, subject.progress, subject.label))
    check_status(answer, report)
    outcome = verdict(subject, answer, report, evidence)
    if settings.verify:
        outcome = as_verified(outcome, unsearched)
    if settings.pages is not None:
        outcome = outcome._replace(drawing=draw(subject, answer, settings.pages, outcome.kept))
    return outcome


def verdict(subject: Subject, answer: Answer, report: Report, found: Evidence) -> Outcome:
    """What a report says of the history, and what that rests on. Raises Untrue."""
    settings, summary = subject.settings, report.summary
    evidence = found._replace(operations=summary["operations"], registers=summary["registers"])
    words = evidence_in_words(evidence, by_search=answer.by_search)
    unknown = [row["register"] for row in report.unknown]
    outcome = Outcome(subject.name, ExitStatus.ATOMIC, words, unknown_advice(report), evidence,
                      program=answer.program, unknown=unknown)
    if report.faulty:
        return faulty(subject, answer, report, outcome)
    if unknown:
        gave_up = f"the search gave up on {len(unknown):,} of {counted(evidence.registers, 'register')}"
        return outcome._replace(status=ExitStatus.UNKNOWN, words=f"{gave_up}; {words}")
    lack, hint = lacks(evidence, settings.least_reads, settings.least_overlaps)
    if lack:
        return outcome._replace(status=ExitStatus.TOO_LITTLE, words=f"{words}; {lack}", advice=hint)
    return outcome


def faulty(subject: Subject, answer: Answer, report: Report, outcome: Outcome) -> Outcome:
    """The outcome with the faulty registers. With `first` no more than one is known."""
    known, number = len(report.faulty), counted(len(report.faulty), "faulty register")
    most = subject.settings.most
    if subject.settings.first:
        known, number, most = 1, "the first faulty register", 1
    faults = faults_in(subject.data, answer, report.faulty[:most])
    asked = subject.settings.levels and not (answer.by_search or subject.settings.first)
    held = levels_kept(subject.data) if asked else Kept()
    return outcome._replace(status=ExitStatus.NOT_ATOMIC, words=f"{number}; {outcome.words}", faulty=known,
                            faults=faults, kept=held.levels, gap=held.gap)


def as_verified(outcome: Outcome, unsearched: int) -> Outcome:
    """The outcome of a verified report, some of whose nos may have taken too long to search again."""
    but = f", but for {counted(unsearched, 'no')} that would take too long" if unsearched else ""
    return outcome._replace(words=f"{outcome.words}; the report was verified{but}", verified=not unsearched)


def draw(subject: Subject, answer: Answer, pages: Pages, held: Optional[Sequence[str]]) -> str:
    """Writes the page of a history, which kept some levels, and gives the page's name."""
    from regkit.drawing.draw import draw_page  # only who asks for pages waits for this
    from regkit.drawing.page import DrawSettings
    from regkit.explain.shrinking import MOST_RUNS, ShrinkSettings

    path = pages.take(subject.name)
    subject.step("drawing", MOST_RUNS if answer.program == SEARCH else 0)
    shrinking = ShrinkSettings(subject.settings.bounds, subject.progress.reach)
    settings = DrawSettings(shrinking=shrinking, kept=held)
    page = draw_page(subject.data, answer.report, shown_name(subject.name), settings)
    path.write_text(page, encoding="utf-8", errors="surrogateescape")
    return str(path)
