"""What the tests that judge answers to random histories share: they judge many, on all processors, count what
the histories were, and show what is wrong."""
import argparse
import collections
import concurrent.futures
import json
import os
import pathlib
import random
import time
from typing import Callable, Counter, Iterable, Iterator, List, NamedTuple, Optional, Sequence, Tuple

import judging
import reference
from judging import Row

FOLDER = pathlib.Path(__file__).resolve().parents[1] / "bin"
BATCH = 50
SHOWN = 5  # wrong answers at the most
SECONDS = 60  # that a run of a program may take
WORKERS = [1, 2, 3, 4, 16]


class Subject(NamedTuple):
    """A program, and what is asked of it."""

    name: str
    reader: reference.Options  # who reads its histories
    history: Callable[[int], bytes]  # that of a seed
    options: Callable[[random.Random], List[str]]  # those of a run, but for the workers
    complaint: judging.Complaint
    kinds: Callable[[Sequence[Row]], Iterable[str]]  # what to count a history as, by its report


class Found(NamedTuple):
    kinds: List[str]
    wrong: Optional[str]


def kinds_of(subject: Subject, history: bytes, output: bytes) -> List[str]:
    try:
        reference.events_of(history, subject.reader)
    except reference.Refused as refused:
        return ["refused", f"refused {refused.number}"]
    return ["accepted", *subject.kinds([json.loads(line) for line in output.splitlines()])]


def judged(subject: Subject, program: str, seed: int) -> Found:
    """One in eight runs is repeated with another number of workers, which may not change a byte."""
    chance = random.Random(seed)
    history, options = subject.history(seed), subject.options(chance)
    words = ["--workers", str(chance.choice(WORKERS)), *options]
    ended = judging.run([program, *words], history, SECONDS)
    wrong = subject.complaint(history, ended, options)
    if not wrong and chance.random() < 0.125:
        others = ["--workers", str(chance.choice(WORKERS)), *options]
        again = judging.run([program, *others], history, SECONDS)
        wrong = f"with {others} it ends so: {again}" if again != ended else None
    if wrong:
        return Found([], f"seed {seed} {' '.join(words)}: {wrong}\n  given   {ended}\n  history {history!r}")
    return Found(kinds_of(subject, history, ended.output), None)


def judged_batch(batch: Tuple[Subject, str, int, int]) -> List[Found]:
    subject, program, first, end = batch
    return [judged(subject, program, seed) for seed in range(first, end)]


def judged_all(subject: Subject, program: str, first: int, count: int) -> Iterator[Found]:
    batches = [(subject, program, seed, min(seed + BATCH, first + count))
               for seed in range(first, first + count, BATCH)]
    with concurrent.futures.ProcessPoolExecutor(len(os.sched_getaffinity(0))) as pool:
        for batch in pool.map(judged_batch, batches):
            yield from batch


def by_number(kind: str) -> Tuple[str, int]:
    """Puts `refused 10` behind `refused 9`."""
    word, _, number = kind.rpartition(" ")
    return (word, int(number)) if number.isdigit() else (kind, 0)


def words_of(about: str, name: str) -> argparse.Namespace:
    form = argparse.RawDescriptionHelpFormatter
    parser = argparse.ArgumentParser(description=about, formatter_class=form)
    parser.add_argument("program", nargs="?", default=str(FOLDER / name), help=f"default bin/{name}")
    parser.add_argument("--count", type=int, default=2000, help="how many histories; default 2000")
    parser.add_argument("--seed", type=int, default=1, help="the seed of the first one; default 1")
    parser.add_argument("--kinds", action="store_true", help="say what the histories were")
    return parser.parse_args()


def main(about: str, subject: Subject) -> int:
    arguments = words_of(about, subject.name)
    program = os.path.abspath(arguments.program)
    counts: Counter[str] = collections.Counter()
    began = time.monotonic()
    wrong = 0
    for found in judged_all(subject, program, arguments.seed, arguments.count):
        counts.update(found.kinds)
        wrong += bool(found.wrong)
        if found.wrong and wrong <= SHOWN:
            print(found.wrong)
    for kind in sorted(counts if arguments.kinds else [], key=by_number):
        print(f"{counts[kind]:8} {kind}")
    print(f"{arguments.count} histories from seed {arguments.seed} in {time.monotonic() - began:.0f} s: "
          + (f"{wrong} answers are wrong" if wrong else "all answers are right"))
    return 1 if wrong else 0
