"""What each key of a report claims, and how it is checked. docs/format.md names the keys."""
import json
from typing import Sequence

from regkit.verify.faults import check_fault, check_inversion
from regkit.verify.operations import History
from regkit.verify.orders import check_order, check_without_line, replay
from regkit.verify.register import Register, check_levels
from regkit.verify.rows import Row, is_number, lines_of, need, with_name


def check_report(history: History, rows: Sequence[Row], joined: bool) -> bool:
    """Checks each claim of a report. Returns whether it is an early answer."""
    *lines, summary = rows
    names = list(history.registers)
    early = "order" not in summary and (len(lines) < len(names) or not names)
    if early:
        check_early(history, lines)
    else:
        named = [line.get("register") for line in lines]
        need(named == names, "the lines aren't those of the registers, in the order of their first calls")
    for line in lines:
        name = line["register"]
        with_name(name, check_line, Register(name, history.registers[name]), line)
    check_summary(history, rows, early or joined)
    if not early and summary["atomic"] == "yes":
        check_merged(history, rows)
    return early


def check_early(history: History, lines: Sequence[Row]) -> None:
    """An early answer has the line of the first register that isn't atomic, if any: those before it are."""
    need(len(lines) < 2, "lines of registers are missing; an early answer has at most one")
    named = lines[0].get("register") if lines else None
    if lines:
        need(named in list(history.registers), f"there is no register {json.dumps(named)}")
        need(lines[0].get("atomic") == "no", "the line of an early answer is of a register that isn't atomic")
    for name, operations in history.registers.items():
        if name == named:
            return
        with_name(name, check_without_line, Register(name, operations))


def check_summary(history: History, rows: Sequence[Row], may_lack_order: bool) -> None:
    *lines, summary = rows
    atomic = all(line["atomic"] == "yes" for line in lines)
    operations = sum(map(len, history.registers.values()))
    registers = len(history.registers)
    said = "yes" if atomic else "no"
    need(summary.get("atomic") == said, f"by the registers' lines, the summary's `atomic` is {said}")
    need(is_number(summary.get("operations"), operations), f"there are {operations} operations")
    need(is_number(summary["registers"], registers), f"there are {registers} registers")
    keys = set(summary) - {"atomic", "operations", "registers"}
    if atomic and not may_lack_order:
        need("order" in keys, "the summary lacks `order`, as only that of `regkit join` may (--joined)")
    need(keys <= ({"order"} if atomic else set()), f"the summary has other keys: {', '.join(sorted(keys))}")


def check_merged(history: History, rows: Sequence[Row]) -> None:
    """The registers' orders, merged by their points; of equal points the earlier register's comes first."""
    *lines, summary = rows
    order = [number for line in lines for number in line["order"]]
    points = [point for line in lines for point in line["points"]]
    places = sorted(range(len(order)), key=points.__getitem__)  # a stable sort: equal points stay as they are
    merged = [order[place] for place in places]
    if "order" in summary:
        need(lines_of(summary, "order") == merged, "the summary's `order` doesn't merge the registers'")
    replay(merged, {a.line: a for operations in history.registers.values() for a in operations})


# ---- The line of a register


def check_line(register: Register, line: Row) -> None:
    need(line.get("atomic") in ("yes", "no"), "`atomic` is neither yes nor no")
    check_counts(register, line)
    check_levels(register, line)
    check_keys(register, line)
    if line["atomic"] == "yes":
        check_order(register, lines_of(line, "order"), lines_of(line, "points"))
    else:
        check_fault(register, line["fault"])
    if "inversion" in line:
        check_inversion(register, line)


def check_counts(register: Register, line: Row) -> None:
    counts = {"writes": len(register.writes), "reads": len(register.reads),
              "pending": sum(not a.completed for a in register.operations)}
    for key, count in counts.items():
        need(is_number(line.get(key), count), f"`{key}` is {count}")


def check_keys(register: Register, line: Row) -> None:
    due = {"atomic", "pending", "reads", "register", "regular", "safe", "writes"}
    due |= {"order", "points"} if line["atomic"] == "yes" else {"fault"}
    due |= {f"{level}_read" for level in ("safe", "regular") if line[level] == "no"}
    if line["atomic"] == "no" and line["regular"] == "yes":
        due.add("inversion")
    need(set(line) == due, f"its keys are not {', '.join(sorted(due))}")
