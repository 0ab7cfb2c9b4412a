"""Python's search for cycles among objects, which only takes time where many are made and all are kept."""
import gc
from contextlib import contextmanager
from typing import Iterator


@contextmanager
def many_objects() -> Iterator[None]:
    """Nobody searches meanwhile. A history, and a source of one, is a million objects without a cycle."""
    was_on = gc.isenabled()
    gc.disable()
    try:
        yield
    finally:
        if was_on:
            gc.enable()
