"""`regkit convert`: makes a history of what another tool recorded."""
import argparse
import io
import json
import sys
from typing import Iterable, Optional, TextIO

from regkit.base.garbage import many_objects
from regkit.base.statuses import ExitStatus
from regkit.commands.stopping import complain
from regkit.convert import output, summary, write_back
from regkit.convert.edn import NotEdn
from regkit.convert.forms import form_of, refuse_binary
from regkit.convert.model import Refused, WrongWords
from regkit.convert.taking import beginning_of, taken_for, text_of
from regkit.convert.whole import Converted, convert
from regkit.convert.words import AUTO, add_arguments, choices_of
from regkit.history.inputs import STANDARD_INPUT, opened

__all__ = ["EPILOG", "HELP", "add_arguments", "run"]

HELP = "make a history of what another tool recorded"
EPILOG = """\
examples:
  regkit convert store/latest/history.edn -o history.jsonl
  regkit convert log.csv --columns process=worker,register=object -o history.jsonl --map history.map
  regkit convert merged.csv --clock-error 5ms --clock-unit us | regkit check
  regkit convert log.tsv --ops fetch=read,store=write --outcomes done=ok,timeout=unknown | regkit check
  regkit convert counters.csv --ops incr=add,decr=subtract,setnx=create --initial 0 | regkit check
  regkit convert lists.csv --ops rpush=append,lrange=read | regkit check

With compare-and-swap (cas) and values that repeat:
  regkit convert history.edn --failed-cas missed | regkit check        # Maelstrom's lin-kv
  regkit convert etcd_000.log --failed-cas missed | regkit check       # Porcupine's log of etcd
  regkit convert kv.jsonl --versions Version --ok-when Err=OK \\
    --outcomes ErrVersion=missed --null ,ErrNoKey | regkit check       # MIT 6.5840
  regkit convert etcd.jsonl --revisions ModRevision --ok-when Succeeded=true \\
    --outcomes false=missed | regkit check                             # etcd's mod revisions
  regkit convert etcd.csv --revisions asked --new-revisions gave | regkit check
  regkit convert log.csv --store redis --initial null | regkit check   # or memcached
  regkit convert mutex.edn --ops acquire=lock,release=unlock | regkit check

What needs no options needs no conversion: `regkit check`, `explain` and `draw` take these files themselves.

A conversion never adds a precedence that the source doesn't have. It drops one only at a tie of time stamps
or by --clock-error, which can hide a fault and never makes one up. What it doesn't understand it refuses by
name, and says which option tells what it means. docs/recipes.md describes the forms, and how to set up a
workload: it is in the repository, and in share/doc/regcheck of a release.

exit status:
  0  converted
  2  the source is refused: standard error says what to do, and nothing is written
  3  wrong command line
  4  input or output failed
"""


def run(arguments: argparse.Namespace) -> int:
    try:
        with many_objects():
            return _run(arguments)
    except WrongWords as error:
        return complain("convert", str(error), ExitStatus.COMMAND_LINE)
    except (Refused, NotEdn) as error:
        return complain("convert", str(error), ExitStatus.REFUSED)
    except UnicodeDecodeError as error:
        words = f"the source isn't UTF-8 ({error.reason}): convert it to UTF-8"
        return complain("convert", words, ExitStatus.REFUSED)
    except ValueError as error:  # Python reads no number of thousands of digits
        return complain("convert", f"a value of the source can't be read: {error}", ExitStatus.REFUSED)


def _run(arguments: argparse.Namespace) -> int:
    to_history = arguments.to == "history"
    with opened(arguments.file or STANDARD_INPUT) as stream:
        beginning, source = beginning_of(stream)
        form = _form(arguments.form, beginning)
        choices = choices_of(arguments, form)
        with text_of(source, form) as lines:
            converted = convert(lines, choices, number=to_history)
    if to_history:
        written = _write(output.history_lines(converted), arguments.output)
        warnings = summary.too_large(written.lines, written.size)
    else:
        _write(write_back.WRITERS[arguments.to](converted.source), arguments.output)
        warnings = iter(())
    if arguments.map:
        _write_map(converted, arguments)
    for line in (*summary.told(converted), *warnings):
        print(f"regkit convert: {line}", file=sys.stderr)
    return ExitStatus.DONE


def _form(named: str, beginning: bytes) -> str:
    """The form that is named, or the one that the source has by its beginning."""
    if named != AUTO:
        refuse_binary(beginning)
        return named
    form = form_of(beginning)
    print(f"regkit convert: {taken_for(form)}", file=sys.stderr)
    return form.name


def _write(lines: Iterable[str], name: Optional[str]) -> output.Written:
    if name is None or name == "-":
        out = io.TextIOWrapper(sys.stdout.buffer, encoding="utf-8", newline="\n")
        try:
            return _flushed(lines, out)
        finally:
            out.detach()
    with open(name, "w", encoding="utf-8", newline="\n") as file:
        return _flushed(lines, file)


def _flushed(lines: Iterable[str], out: TextIO) -> output.Written:
    written = output.write_lines(lines, out)
    out.flush()
    return written


def _write_map(converted: Converted, arguments: argparse.Namespace) -> None:
    with open(arguments.map, "w", encoding="utf-8") as out:
        json.dump(output.source_map(converted, arguments.file or "-"), out, separators=(",", ":"))
        out.write("\n")
