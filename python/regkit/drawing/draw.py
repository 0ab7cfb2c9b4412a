"""A history and its report as one page that stands alone: nothing is loaded."""
from regkit.base.garbage import many_objects
from regkit.checker.report import Report, read_report
from regkit.drawing.page import DrawSettings, page
from regkit.explain.shrinking import NoFault
from regkit.history.operations import History, read_history


class Mismatch(ValueError):
    """The report says things that the history doesn't bear out: it is of another history."""

    def __init__(self) -> None:
        super().__init__("the report isn't of this history")


def draw_page(history: bytes, report: bytes, title: str, settings: DrawSettings = DrawSettings()) -> str:
    """The page for a history that the checker accepted. Raises ValueError if the report is of another
    history."""
    with many_objects():
        return page_of(read_history(history), read_report(report), title, settings)


def page_of(history: History, report: Report, title: str, settings: DrawSettings = DrawSettings()) -> str:
    """The same for a history and a report that were read already."""
    unknown = [row for row in report.rows if row["register"] not in history.registers]
    if unknown:
        raise Mismatch
    try:
        return page(history, report, title, settings)
    except (KeyError, AssertionError, NoFault) as error:
        raise Mismatch from error
