"""`regkit merge`: one history of what several recorders of a run wrote."""
import argparse
import contextlib
import math
import re
import sys
from fractions import Fraction
from typing import Iterator, Sequence

from regkit.base.garbage import many_objects
from regkit.base.statuses import ExitStatus
from regkit.commands.stopping import complain
from regkit.convert.clock import UNITS
from regkit.convert.summary import too_large
from regkit.history.inputs import STANDARD_INPUT, read_input, shown_name
from regkit.merge import Merged, Recorded, Unmergeable, first_again, merged
from regkit.words.phrases import counted, for_regsearch
from regkit.words.progress import Progress
from regkit.words.quoting import plain

HELP = "merge the histories of several recorders of one run, by their times"
EPILOG = """\
Each line of each history has a time: regkit.record writes it if Recorder has a clock. The clock error is the
largest difference between two of the clocks at any one moment of the run. Processes of one machine that
record with time.monotonic_ns share one clock, and their error is 0. On several machines, record with
time.time_ns, keep the clocks in step, and state twice what your time service gives as the greatest offset.

A reply comes before a call of another history only if its time plus the clock error is less than the call's:
then it certainly did. Within a history the order stays, unless the orders of two histories contradict each
other within the clock error: some operations of one history then overlap. So the merged history has no
precedence that the run hadn't. A large clock error can hide a fault, and never makes one up.

Processes get numbers of their own, history by history. Registers of one name are one register. Values may
repeat, and cas, deletes and swaps stay; a message says so, since regsearch decides such a history, and
regcheck doesn't.

examples:
  regkit merge a.jsonl b.jsonl | regkit check
  regkit merge worker-*.jsonl -o run.jsonl
  regkit merge machine-*.jsonl --clock-error 5ms -o run.jsonl

exit status:
  0  merged
  2  a history is refused: standard error says what to do, and nothing is written
  3  wrong command line
  4  input, memory or output failed
"""

_DURATION = re.compile(r"([0-9]+(?:\.[0-9]+)?)(ns|us|ms|s)|0")


def duration(word: str) -> int:
    """A number of nanoseconds, rounded up."""
    found = _DURATION.fullmatch(word)
    if found is None:
        raise argparse.ArgumentTypeError(f"{word!r} is no duration: a number with ns, us, ms or s is "
                                         "expected, such as 5ms")
    return math.ceil(Fraction(f"{found[1] or 0}e{UNITS[found[2] or 'ns']}"))


def add_arguments(parser: argparse.ArgumentParser) -> None:
    parser.add_argument("files", metavar="FILE", nargs="+", help="the histories; - is standard input")
    parser.add_argument("-o", "--output", metavar="OUT", default="-",
                        help="the merged history (default: standard output)")
    parser.add_argument("--clock-error", metavar="DURATION", type=duration, default=0,
                        help="the largest difference between two clocks, such as 5ms; 0, the default, is for "
                             "recorders that share one clock")


def run(arguments: argparse.Namespace) -> int:
    if arguments.files.count(STANDARD_INPUT) > 1:
        return complain("merge", "standard input can be read once: give - once", ExitStatus.COMMAND_LINE)
    try:
        with Progress() as progress, many_objects():
            files = list(read_files(arguments.files, progress))
            progress.step("merging")
            found = merged(files, arguments.clock_error)
            size = write(found.lines, arguments.output)
    except Unmergeable as error:
        return complain("merge", plain(str(error)), ExitStatus.REFUSED)
    for line in (*told(files, found, arguments.clock_error), *too_large(len(found.lines), size)):
        print(f"regkit merge: {line}", file=sys.stderr)
    return ExitStatus.DONE


def read_files(names: Sequence[str], progress: Progress) -> Iterator[Recorded]:
    for name in names:
        progress.step(f"{plain(shown_name(name))}: reading")
        yield Recorded(shown_name(name), read_input(name, None))


def write(lines: list[str], name: str) -> int:
    """Writes the merged history, and gives its size in bytes."""
    data = "".join(lines).encode("utf-8")
    with contextlib.ExitStack() as opened:
        out = sys.stdout.buffer if name == "-" else opened.enter_context(open(name, "wb"))
        out.write(data)
        out.flush()
    return len(data)


def told(files: Sequence[Recorded], found: Merged, clock_error: int) -> Iterator[str]:
    """What a person should know of the merged history."""
    for number, file in enumerate(files):
        yield f"{plain(file.name)}: {counted(len(file.events), 'event')}{numbered(found, file, number)}"
    apart = [plain(file.name) for file in files if is_apart(file, files, clock_error)]
    if apart:
        yield (f"no other history has times near those of {', '.join(apart)}: were all recorded at once, "
               "with clocks that agree?")
    if found.given_up:
        yield (f"the orders of two histories contradict each other within the clock error at "
               f"{counted(found.given_up, 'call')}: there operations of one history overlap")
    if found.numbers.moved:
        yield (f"gave {counted(found.numbers.moved, 'operation')} another process, since a call of the same "
               "process was still open")
    if not clock_error and len(files) > 1:
        yield "took the clocks for one: if they aren't, --clock-error says how much they differ"
    yield from program_told(files)


def program_told(files: Sequence[Recorded]) -> Iterator[str]:
    """That the history is one for regsearch, if it is. Recorders may repeat each other by mistake."""
    again = first_again(files)
    if again is not None and len(files) > 1:
        write, first = again
        yield (f"{plain(write.in_words(first))}: if each recorder was meant to write values of its own, let "
               "it, as in Recorder(\"history.jsonl\", values_after=number * 1_000_000)")
    words = for_regsearch({op for file in files for op in file.searched}, again is not None)
    if words:
        yield words


def numbered(found: Merged, file: Recorded, number: int) -> str:
    """Which numbers the processes of a file got."""
    own = [found.numbers.processes[number, process].own for process in file.processes]
    if len(own) > 1:
        return f"; its {len(own):,} processes are {own[0]} to {own[-1]}"
    return f"; its process is {own[0]}" if own else ""


def is_apart(file: Recorded, files: Sequence[Recorded], clock_error: int) -> bool:
    """Whether all events of a file are certainly before or after all of each other file."""
    others = [other.events for other in files if other is not file and other.events]
    if not file.events or not others:
        return False
    first, last = file.events[0].time, file.events[-1].time
    return all(last + clock_error < events[0].time or events[-1].time + clock_error < first
               for events in others)
