"""A progress bar on standard error, for work that takes longer than two seconds on a terminal."""
import sys
import threading
import time
from types import TracebackType
from typing import Callable, Optional, TextIO

PATIENCE = 2.0  # seconds before the bar shows
PAUSE = 0.2  # seconds between two looks
WIDTH = 30  # of the bar itself, in characters
CLEAR = "\r\x1b[K"


class Progress:
    """Tells a person how far the work is. Nothing is written unless the stream is a terminal.

    The work sets `done` as it goes; a thread of its own draws, so that a step that can't count, such as a
    run of the checker, shows its seconds all the same. `label_of` gives the label of work without steps."""

    def __init__(self, stream: Optional[TextIO] = None, label_of: Optional[Callable[[], str]] = None) -> None:
        self.stream = sys.stderr if stream is None else stream
        self.label = ""
        self._label_of = label_of
        self.done = 0
        self.total = 0
        self._began = time.monotonic()
        self._shown = False
        self._lock = threading.Lock()
        self._ended = threading.Event()
        self._thread: Optional[threading.Thread] = None

    def __enter__(self) -> "Progress":
        if self.stream.isatty():
            self._thread = threading.Thread(target=self._draw_until_ended, daemon=True)
            self._thread.start()
        return self

    def __exit__(self, kind: Optional[type[BaseException]], error: Optional[BaseException],
                 trace: Optional[TracebackType]) -> None:
        self.end()

    def end(self) -> None:
        """Takes the bar away."""
        self._ended.set()
        if self._thread is not None:
            self._thread.join()
        self._clear()

    def step(self, label: str, total: int = 0) -> None:
        """Begins a step. Without a total the bar shows the seconds alone."""
        self.label, self.done, self.total = label, 0, total

    def reach(self, done: int) -> None:
        """Says how much of the step's total is done."""
        self.done = done

    def say(self, text: str, stream: TextIO) -> None:
        """Prints a line, with the bar out of its way."""
        with self._lock:
            self._clear()
            print(text, file=stream, flush=True)

    def _clear(self) -> None:
        if self._shown:
            self.stream.write(CLEAR)
            self.stream.flush()
            self._shown = False

    def line(self, seconds: float) -> str:
        """What the bar shows at the moment."""
        if not self.total:
            return f"{self._label_of() if self._label_of else self.label}, {seconds:.0f} s"
        part = min(1.0, self.done / self.total)
        full = int(part * WIDTH)
        return f"{self.label} [{'#' * full}{' ' * (WIDTH - full)}] {part:4.0%}, {seconds:.0f} s"

    def _draw_until_ended(self) -> None:
        while not self._ended.wait(PAUSE):
            seconds = time.monotonic() - self._began
            if seconds < PATIENCE:
                continue
            with self._lock:
                self.stream.write(CLEAR + self.line(seconds))
                self.stream.flush()
                self._shown = True
