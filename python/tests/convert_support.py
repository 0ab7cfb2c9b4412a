"""Runs `regkit convert` in this process, for its tests."""
import argparse
import contextlib
import functools
import io
import json
import pathlib
import subprocess
import tempfile
from typing import Any, Dict, List, NamedTuple, Optional, Union

from regkit.commands import convert
from regkit.convert import whole
from regkit.convert.model import Choices
from regkit.convert.output import history_lines
from regkit.convert.words import choices_of

SAMPLES = pathlib.Path(__file__).parent / "samples"
HISTORIES = pathlib.Path(__file__).parents[2] / "bin" / "history_generator"


class Ran(NamedTuple):
    """What a conversion did."""

    status: int
    history: str  # empty if none was written
    told: str  # standard error
    map: Optional[Dict[str, Any]]

    @property
    def events(self) -> List[Dict[str, Any]]:
        return [json.loads(line) for line in self.history.splitlines()]


def run(source: Union[str, bytes], form: str, *options: str) -> Ran:
    """Converts a text, or bytes. The option --map needs no file."""
    with tempfile.TemporaryDirectory() as folder:
        place = pathlib.Path(folder)
        (place / "source").write_bytes(source.encode("utf-8") if isinstance(source, str) else source)
        words = ["--from", form, str(place / "source"), "-o", str(place / "out"), *options]
        if "--map" in options:
            words.insert(words.index("--map") + 1, str(place / "map"))
        parser = argparse.ArgumentParser()
        convert.add_arguments(parser)
        told = io.StringIO()
        with contextlib.redirect_stderr(told):
            status = convert.run(parser.parse_args(words))
        out, table = place / "out", place / "map"
        return Ran(
            status,
            out.read_text(encoding="utf-8") if out.exists() else "",
            told.getvalue(),
            json.loads(table.read_text(encoding="utf-8")) if table.exists() else None,
        )


@functools.lru_cache(maxsize=None)
def choices(form: str, *options: str) -> Choices:
    """What options say."""
    parser = argparse.ArgumentParser()
    convert.add_arguments(parser)
    return choices_of(parser.parse_args(options), form)


def history_of(source: str, form: str, *options: str) -> str:
    """The history of a source, without a file. Raises Refused or NotEdn."""
    return "".join(history_lines(whole.convert(source.splitlines(keepends=True), choices(form, *options))))


def short(history: str) -> List[str]:
    """Each event in a few letters: calls are `1 w x 5`, `1 r x` and `1 c x 5 6`, replies `1 .`, `1 = 5` and
    `1 True`."""
    lines: List[str] = []
    ops: Dict[int, str] = {}
    for event in map(json.loads, history.splitlines()):
        process, what = event["process"], event["event"]
        if what == "call":
            ops[process] = event["op"]
            asked = [event[name] for name in ("value", "from", "to") if name in event]
            lines.append(" ".join(map(str, [process, event["op"][0], event["register"], *asked])))
        elif what == "reply":
            answers = {"read": f"= {event.get('value')}", "write": ".", "cas": event.get("ok")}
            lines.append(f"{process} {answers[ops[process]]}")
        else:
            lines.append(f"{process} {what}")
    return lines


def generated(kind: str, events: int, seed: int) -> str:
    """A history of the generator."""
    words = [str(HISTORIES), kind, "--events", str(events), "--seed", str(seed)]
    return subprocess.run(words, capture_output=True, check=True).stdout.decode()
