"""The calls that a fault names are found, without reading the whole history."""
import json
import random
import unittest
from typing import Any, Dict, List, Set

from regkit.checker.programs import run_checker
from regkit.checker.report import read_report, read_verdict
from regkit.explain.excerpt import excerpt
from regkit.history.operations import Operation, read_history
from regkit.judging.outcome import faults_of

from .events import Line, crash, fail, gave, read, reply, text, write

WHO = ["client", "node", "time"]


def run_of(chance: random.Random, count: int, registers: List[str]) -> List[Line]:
    """The clients of some registers. Calls fail or are never answered, processes crash, and reads may lie."""
    lines: List[Line] = []
    written = {register: 0 for register in registers}
    opened: Dict[int, Line] = {}
    gone: Set[int] = set()
    lies = chance.choice([0.02, 0.2, 0.8])
    while len(lines) < count:
        process = chance.randrange(1, 6) + (100 * (len(gone) // 2))
        if process in gone:
            gone.add(-len(gone))
        elif process not in opened:
            name = chance.choice(registers)
            is_write = chance.random() < 0.4
            written[name] += is_write
            opened[process] = write(process, written[name], name) if is_write else read(process, name)
            lines.append(opened[process])
        elif chance.random() < 0.05:
            gone.add(process)
            lines.append(crash(process))
        else:
            call = opened.pop(process)
            latest = written[call["register"]]
            wrong = chance.choice([latest + 1, 999, *[chance.randrange(latest + 1) or None] * 10])
            value = wrong if chance.random() < lies else latest or None
            lines.append(fail(process) if chance.random() < 0.1 else
                         reply(process) if "value" in call else gave(process, value))
    return lines


def spelled(lines: List[Line], **how: Any) -> bytes:
    return "".join(json.dumps(line, **how) + "\n" for line in lines).encode("utf-8", "surrogatepass")


def with_members(chance: random.Random, lines: List[Line]) -> List[Line]:
    """The same by clients and nodes, at times that don't go back."""
    begin = chance.randrange(10**9)
    return [{**line, **dict(zip(WHO, [f"c{line['process']}", "n", begin + 999_999 * place]))}
            for place, line in enumerate(lines)]


def told(call: Operation) -> List[Any]:
    return [getattr(call, member) for member in Operation.__slots__]


class Excerpts(unittest.TestCase):
    def test_the_same_sentences(self) -> None:
        """What is said of the faults is the same as with the whole history, but that of a contradiction the
        whole may have operations that are nearer."""
        kinds = {"unwritten": 0, "early": 0, "zones": 0}
        for seed in range(250):
            chance = random.Random(seed)
            lines = run_of(chance, chance.randrange(4, 60), ["x", "y\u00e4", "z"][:chance.randrange(1, 4)])
            history = spelled(with_members(chance, lines) if seed % 3 else lines,
                              separators=(",", ":") if seed % 2 else (", ", ": "))
            answer = run_checker(history)
            rows = read_report(answer.report).faulty
            self.assertEqual(read_verdict(answer.report).faulty, rows)
            whole, part = read_history(history), excerpt(history, rows)
            for row, of_part, of_whole in zip(rows, faults_of(part, rows), faults_of(whole, rows)):
                kind = row["fault"]["kind"]
                kinds[kind] += 1
                if kind == "zones":
                    self.assertEqual(len(of_part.sentences), len(of_whole.sentences), f"seed {seed}")
                else:
                    self.assertEqual(of_part.sentences, of_whole.sentences, f"seed {seed}")
            for call in part.calls:
                self.assertEqual(told(call), told(whole.by_line[call.line]), f"seed {seed}")
        self.assertTrue(all(count > 15 for count in kinds.values()), kinds)

    def test_where_the_first_event_stands(self) -> None:
        """Blank lines, however many and long, and a crash before the first call."""
        for begin in (b"", b"\n" * 200_000, b" " * 70_000 + b"\r\n\t\n", text(crash(7))):
            history = begin + text(write(1, 5), reply(1), read(2), gave(2, None)).rstrip(b"\n")
            rows = read_report(run_checker(history).report).faulty
            self.assertEqual([fault.sentences for fault in faults_of(excerpt(history, rows), rows)],
                             [fault.sentences for fault in faults_of(read_history(history), rows)])

    def test_names_of_members_in_escapes(self) -> None:
        history = b'\n'.join([b'{"process":1,"event":"call","op":"write","register":"x","value":5}',
                              b'{"proces\\u0073":1,"event":"reply"}', text(read(1), gave(1, None))])
        rows = read_report(run_checker(history).report).faulty
        self.assertEqual(excerpt(history, rows).by_line[1].end_line, 2)

    def test_a_verdict_without_orders(self) -> None:
        history = text(write(1, 1), reply(1), write(1, 1, "y"), reply(1), read(2), gave(2, 1))
        written = run_checker(history).report
        verdict, whole = read_verdict(written), read_report(written)
        self.assertEqual((verdict.rows, verdict.summary),
                         ([], {key: whole.summary[key] for key in ("atomic", "operations", "registers")}))


if __name__ == "__main__":
    unittest.main()
