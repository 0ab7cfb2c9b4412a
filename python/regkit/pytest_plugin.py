"""For pytest: a recorder for each test, whose history is checked after the test, and kept if the test fails.

    def test_store(regkit_recorder):
        with regkit_recorder.client() as client:
            ...

The history has to be linearizable. Mark a test, or a module by `pytestmark`, if a level is enough:

    @pytest.mark.regkit_level("session")

The test may call `assert_atomic(regkit_recorder)` or `assert_level(regkit_recorder, "session")` itself; then
its own check is the only one. pytest loads this module if regkit is installed; else say
`pytest -p regkit.pytest_plugin`.
"""
import pathlib
from typing import Any, Callable, Iterator, Optional

from regkit.checker.levels import REQUIRED
from regkit.record import Recorder
from regkit.testing import assert_atomic, assert_level, keep, verdict

FIXTURE = "regkit_recorder"
MARKER = "regkit_level"

Decorator = Callable[[Any], Any]


def decorators() -> tuple[Decorator, Callable[..., Decorator]]:
    """Those of pytest. Without pytest, some that do nothing, so that this module can still be imported."""
    try:
        from pytest import fixture, hookimpl
    except ImportError:
        return (lambda function: function), (lambda **_: lambda function: function)
    return fixture, hookimpl


fixture, hookimpl = decorators()


def pytest_addoption(parser: Any) -> None:
    parser.getgroup("regkit").addoption("--regkit-keep", metavar="DIR", default="regkit-failures",
                                        help="where histories of failed tests are kept (default %(default)s)")


def pytest_configure(config: Any) -> None:
    config.addinivalue_line("markers", f"{MARKER}(level): the history of {FIXTURE} has to keep this level, "
                                       f"in place of being linearizable: {', '.join(REQUIRED)}")


@fixture
def regkit_recorder(tmp_path: pathlib.Path) -> Iterator[Recorder]:
    """A Recorder. Unless the test checks its history, it is checked when the test is over."""
    with Recorder(tmp_path / "history.jsonl") as recorder:
        yield recorder


def recorder_of(item: Any) -> Optional[Recorder]:
    recorder = getattr(item, "funcargs", {}).get(FIXTURE)
    return recorder if isinstance(recorder, Recorder) else None


def level_of(item: Any) -> Optional[str]:
    """The level that the test's marker names. A marker without one names none that there is."""
    marker = item.get_closest_marker(MARKER)
    return None if marker is None else str(marker.args[0] if marker.args else "")


@hookimpl(trylast=True)  # after the test itself, and not at all if it raised
def pytest_runtest_call(item: Any) -> None:
    recorder = recorder_of(item)
    if recorder is None or recorder.checked:
        return
    level = level_of(item)
    try:
        if level is None:
            assert_atomic(recorder)
        else:
            assert_level(recorder, level)
        return
    except AssertionError as error:
        explained = str(error)
    from pytest import fail

    fail(explained, pytrace=False)  # alone, since no line of the test is at fault


@hookimpl(hookwrapper=True)
def pytest_runtest_makereport(item: Any, call: Any) -> Iterator[None]:
    """Adds the verdict to what pytest prints of a failed test, and says where its history is."""
    outcome: Any = yield
    report = outcome.get_result()
    recorder = recorder_of(item)
    if recorder is None or report.when != "call" or not report.failed:
        return
    path = keep(recorder, item.config.rootpath / item.config.getoption("--regkit-keep"), item.nodeid)
    said = verdict(recorder, recorder.level if recorder.checked else level_of(item))
    drawing = f"to see it: python3 -m regkit draw {path} -o fault.html"
    report.sections.append((f"history {path}", drawing if said in str(call.excinfo.value) else said))
