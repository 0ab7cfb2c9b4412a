"""The outcomes of some histories in JUnit's XML, which CI systems show as the results of tests."""
import html

from regkit.base.statuses import ExitStatus
from regkit.history.inputs import shown_name
from regkit.judging.outcome import NO_VERDICT, TimedOutcome, text_of
from regkit.words.quoting import plain
from regkit.words.verdicts import VERDICTS


def attribute(text: str) -> str:
    return html.escape(plain(text), quote=True)


def content(lines: list[str]) -> str:
    return html.escape("\n".join(map(plain, lines)), quote=False)


def test_case(timed: TimedOutcome) -> str:
    """A history as a test: an error if it was refused, unknown, or the check failed; a failure unless it is a
    yes."""
    outcome = timed.outcome
    begin = (f'  <testcase classname="regkit check" name="{attribute(shown_name(outcome.file))}" '
             f'time="{timed.seconds:.3f}">')
    if outcome.status == ExitStatus.ATOMIC:
        return f"{begin}<system-out>{content([outcome.words, *text_of(outcome)])}</system-out></testcase>"
    kind = "error" if outcome.status in NO_VERDICT else "failure"
    verdict = VERDICTS[outcome.status]
    return (f'{begin}<{kind} type="{verdict}" message="{attribute(f"{verdict}: {outcome.words}")}">'
            f"{content(text_of(outcome))}</{kind}></testcase>")


def document(told: list[TimedOutcome]) -> str:
    """The whole file: one suite, with a test for each history."""
    errors = sum(timed.outcome.status in NO_VERDICT for timed in told)
    failures = sum(timed.outcome.status != ExitStatus.ATOMIC for timed in told) - errors
    seconds = sum(timed.seconds for timed in told)
    suite = f'tests="{len(told)}" failures="{failures}" errors="{errors}" time="{seconds:.3f}"'
    cases = "".join(test_case(timed) + "\n" for timed in told)
    return ('<?xml version="1.0" encoding="UTF-8"?>\n'
            f'<testsuites {suite}>\n<testsuite name="regkit check" {suite}>\n{cases}</testsuite>\n'
            "</testsuites>\n")
