"""Runs programs with some of their requests for memory refused, by tests/refuse_memory.c,
which is preloaded."""
import os
import pathlib
import subprocess
import sys
from concurrent.futures import ThreadPoolExecutor
from typing import Callable, Iterator, Optional, Sequence, Set, Tuple, TypeVar, Union

from programs import to_one_processor

FOLDER = pathlib.Path(__file__).resolve().parent
SECONDS = 60
AT_ONCE = 4
BATCH = 32

Ended = Tuple[int, bytes, bytes]  # exit status, standard output, standard error
T = TypeVar("T")


def build(folder: str) -> str:
    """The library to preload, made in this folder."""
    library = os.path.join(folder, "refuse_memory.so")
    compiler = os.environ.get("CC", "cc")
    subprocess.run([compiler, "-O2", "-shared", "-fPIC", "-o", library, FOLDER / "refuse_memory.c", "-ldl"],
                   check=True)
    return library


def run(library: str, command: Sequence[Union[str, "os.PathLike[str]"]], first: int = 0, last: int = 0,
        threads: bool = False, given: bytes = b"", alone: bool = False) -> Tuple[Ended, Set[str]]:
    """What the command ended with, and which kinds of request were refused: m for memory, t for a thread. It
    runs on one processor if it is alone. A command that doesn't end ends the test."""
    reader, writer = os.pipe()
    environment = {"LD_PRELOAD": library, "REFUSE_FROM": str(first), "REFUSE_TO": str(last),
                   "REFUSE_TOLD": str(writer), "REFUSE_THREADS": str(int(threads))}
    try:
        ran = subprocess.run(command, input=given, capture_output=True, env=environment, pass_fds=[writer],
                             timeout=SECONDS, check=False, preexec_fn=to_one_processor if alone else None)
    except subprocess.TimeoutExpired:
        sys.exit(f"requests {first} to {last} refused: {command} didn't end in {SECONDS} seconds")
    finally:
        os.close(writer)
    with os.fdopen(reader, "rb") as told:
        return (ran.returncode, ran.stdout, ran.stderr), set(told.read().decode())


def in_turn(refused_at: Callable[[int], Tuple[T, Set[str]]],
            most: int) -> Iterator[Optional[Tuple[T, Set[str]]]]:
    """What `refused_at` gives for each request in turn, a pair whose second part are the kinds of request
    that were refused, until none is. Last comes None if some were refused up to request `most`."""
    with ThreadPoolExecutor(AT_ONCE) as pool:
        for start in range(1, most + 1, BATCH):
            tried = list(pool.map(refused_at, range(start, start + BATCH)))
            yield from tried
            if not any(kinds for _, kinds in tried):
                return
    yield None
