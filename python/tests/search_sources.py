"""Random histories with cas and repeated values, and what `regsearch` says of many of them at once.

A right history is the work of a simulated register for each key. In a changed one an answer is another, which
may be a fault or not.
"""
import json
import os
import pathlib
import random
import shutil
import subprocess
from typing import Any, Dict, Iterable, List, Optional, Tuple

from tests.convert_sources import Call

_BESIDE = pathlib.Path(__file__).parents[2] / "bin" / "regsearch"
VALUES = (1, 2, 3)  # few, so that they repeat


def find_regsearch() -> Optional[str]:
    """The program by REGSEARCH, that of the repository, or the one on PATH."""
    named = os.environ.get("REGSEARCH") or (str(_BESIDE) if _BESIDE.exists() else None)
    return named or shutil.which("regsearch")


class _Open:
    """A call that is open."""

    def __init__(self, call: Call) -> None:
        self.call = call
        self.effective = self.missed = False

    def take_effect(self, store: Dict[str, Optional[int]]) -> None:
        self.effective = True
        key = self.call.key
        if self.call.op == "read":
            self.call = self.call._replace(value=store[key])
        elif self.call.op == "cas" and store[key] != self.call.expected:
            self.missed = True
        else:
            store[key] = self.call.value

    def ended(self, end: Optional[int], outcome: str) -> Call:
        return self.call._replace(end=end, outcome=outcome)


def _called(chance: random.Random, client: int, time: int, versions: bool) -> Call:
    if versions:
        version = chance.randrange(5)
        wanted = (version + 1, version or None) if chance.random() < 0.6 else (None, None)
        return Call(client, chance.choice("ab"), "cas" if wanted[0] else "read", wanted[0], time, None,
                    "unknown", wanted[1])
    op = chance.choice(["read", "write", "cas", "cas"])
    value = None if op == "read" else chance.choice(VALUES)
    expected = chance.choice([None, *VALUES, *VALUES]) if op == "cas" else None
    return Call(client, chance.choice("ab"), op, value, time, None, "unknown", expected)


def right_search_history(chance: random.Random, versions: bool = False) -> List[Call]:
    """Clients call, take effect at one moment and get their answers, but for some that fail or get none.

    With `versions`, each cas is a put by version, from a version to the next.
    """
    clients = list(range(chance.randrange(1, 5)))
    store: Dict[str, Optional[int]] = {"a": None, "b": None}
    running: Dict[int, _Open] = {}
    lost: List[_Open] = []  # calls of an unknown outcome, which may take effect later
    done: List[Call] = []
    for time in range(chance.randrange(8, 50)):
        place = chance.randrange(len(clients))
        client = clients[place]
        call = running.get(client)
        if lost and chance.random() < 0.1:
            lost.pop().take_effect(store)
        if call is None:
            running[client] = _Open(_called(chance, client, time, versions))
        elif not call.effective and chance.random() < 0.85:
            call.take_effect(store)
        else:
            del running[client]
            if call.effective and chance.random() < 0.9:
                done.append(call.ended(time, "missed" if call.missed else "ok"))
            elif not call.effective and chance.random() < 0.5:
                done.append(call.ended(time, "fail"))
            else:
                done.append(call.ended(None, "unknown"))
                lost += [] if call.effective else [call]
                clients[place] = max(clients) + 1
    done += [call.ended(None, "unknown") for call in running.values()]
    return sorted(done, key=lambda call: call.start)


def changed_search_history(chance: random.Random, versions: bool = False) -> List[Call]:
    """A right history in which one answer of a read or a cas is another."""
    while True:
        calls = right_search_history(chance, versions)
        answers = [place for place, call in enumerate(calls)
                   if call.op != "write" and call.outcome in ("ok", "missed")]
        if answers:
            place = chance.choice(answers)
            call = calls[place]
            if call.op == "read":
                others = {None, 77, *VALUES} - {call.value}
                calls[place] = call._replace(value=chance.choice(sorted(others, key=str)))
            else:
                calls[place] = call._replace(outcome={"ok": "missed", "missed": "ok"}[call.outcome])
            return calls


def without_misses(calls: List[Call]) -> List[Call]:
    """Each cas that missed as one that failed, which says nothing of the value."""
    return [call._replace(outcome="fail") if call.outcome == "missed" else call for call in calls]


def verdicts(histories: Iterable[str], program: str) -> List[bool]:
    """Whether each history is atomic: one run of `regsearch` over all, each with registers of its own."""
    lines: List[str] = []
    first = place = 0
    for place, history in enumerate(histories, 1):
        most = first
        for event in map(json.loads, history.splitlines()):
            event["process"] += first
            most = max(most, event["process"])
            if "register" in event:
                event["register"] = f"{place}/{event['register']}"
            lines.append(json.dumps(event))
        first = most + 1
    return _whole(_report("\n".join(lines), program), place)


def _report(history: str, program: str) -> List[Tuple[int, str]]:
    """By register, the number of its history and whether it is atomic."""
    ran = subprocess.run([program, "-"], input=history.encode(), stdout=subprocess.PIPE,
                         stderr=subprocess.PIPE, check=False)
    assert ran.returncode in (0, 1), ran.stderr
    rows: List[Dict[str, Any]] = [json.loads(line) for line in ran.stdout.splitlines()]
    return [(int(row["register"].split("/")[0]), row["atomic"]) for row in rows if "register" in row]


def _whole(registers: List[Tuple[int, str]], number: int) -> List[bool]:
    assert {said for _, said in registers} <= {"yes", "no"}
    faulty = {place for place, said in registers if said == "no"}
    return [place not in faulty for place in range(1, number + 1)]
