"""Histories written down in tests: a line for each event, and the random histories of one register."""
import io
import json
import random
from contextlib import redirect_stderr, redirect_stdout
from typing import Any, Dict, List, NamedTuple, Optional
from unittest import mock

from regkit.cli import main

Line = Dict[str, Any]


class Ran(NamedTuple):
    """What a command did."""

    status: int
    out: str
    err: str


class Bytes(io.TextIOWrapper):
    """Standard input with some bytes."""

    def __init__(self, data: bytes) -> None:
        super().__init__(io.BytesIO(data))


def run(*words: str, given: bytes = b"") -> Ran:
    """Runs a command in this process."""
    out, err = io.StringIO(), io.StringIO()
    with redirect_stdout(out), redirect_stderr(err), mock.patch("sys.stdin", Bytes(given)):
        try:
            status = main(list(words))
        except SystemExit as end:
            status = int(end.code or 0)
    return Ran(status, out.getvalue(), err.getvalue())


def write(process: int, value: int, register: str = "x") -> Line:
    return {"process": process, "event": "call", "op": "write", "register": register, "value": value}


def read(process: int, register: str = "x") -> Line:
    return {"process": process, "event": "call", "op": "read", "register": register}


def reply(process: int) -> Line:
    return {"process": process, "event": "reply"}


def gave(process: int, value: Optional[int]) -> Line:
    return {"process": process, "event": "reply", "value": value}


def fail(process: int) -> Line:
    return {"process": process, "event": "fail"}


def crash(process: int) -> Line:
    return {"process": process, "event": "crash"}


def stale(*registers: str) -> List[Line]:
    """In each register a read of null after a write."""
    return [each for name in registers
            for each in (write(1, 5, name), reply(1), read(1, name), gave(1, None))]


def text(*events: Line) -> bytes:
    """The bytes of a history."""
    return "".join(json.dumps(event) + "\n" for event in events).encode()


def random_history(seed: int, events: int, processes: int = 3, fails: bool = True) -> List[Line]:
    """A history of one register. Most reads give the latest written value, the others any value, even a
    later one."""
    chance = random.Random(seed)
    lines: List[Line] = []
    written: List[int] = []
    opened: Dict[int, Line] = {}
    for _ in range(events):
        process = chance.randrange(processes)
        if process not in opened:
            call = write(process, len(written) + 1) if chance.random() < 0.4 else read(process)
            opened[process] = call
            lines.append(call)
            written += [call["value"]] if "value" in call else []
            continue
        call = opened.pop(process)
        if fails and chance.random() < 0.15:
            lines.append(fail(process))
        elif call["op"] == "write":
            lines.append(reply(process))
        else:
            latest = written[-1] if written else None
            others = [None, *written, len(written) + 1, 99]
            lines.append(gave(process, latest if chance.random() < 0.6 else chance.choice(others)))
    return lines


def cas(process: int, asked: Optional[int], given: int, register: str = "x") -> Line:
    return {"process": process, "event": "call", "op": "cas", "register": register, "from": asked,
            "to": given}


def took(process: int, place: bool) -> Line:
    return {"process": process, "event": "reply", "ok": place}
