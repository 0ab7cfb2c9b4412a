"""The gap of a register: how many events old its reads must be allowed to be for it to be atomic."""
from typing import Any

from regkit.verify.clusters import check_kept, clusters_of
from regkit.verify.faults import is_in_cluster
from regkit.verify.guarantees import Places, must_come_before, within
from regkit.verify.operations import Operation
from regkit.verify.register import Register, pair_of
from regkit.verify.rows import Wrong, need


def check_gap(register: Register, gap: Any, places: Places) -> None:
    """Two clusters conflict if reads must be younger. If reads may be that old, there is an order."""
    need(type(gap) is dict, "`gap` is not an object")
    need(set(gap) == {"events", "first", "second", "writes"},
         "the keys of `gap` are not events, first, second, writes")
    events = gap["events"]
    need(type(events) is int and events >= 0, "`events` of `gap` is no number")
    v, w = pair_of(register, gap, "writes")
    need(v.is_write and w.is_write and v is not w, "`writes` of `gap` is not two writes")
    for key, (before, after) in (("first", (v, w)), ("second", (w, v))):
        check_step(register, gap, key, (before, after), places)
    try:
        check_kept(register, within(events + 1), places)
    except Wrong as wrong:
        raise Wrong(f"`gap` is greater than {events} events: {wrong}") from None


def check_step(register: Register, gap: dict[str, Any], key: str, writes: tuple[Operation, Operation],
               places: Places) -> None:
    """The operation of one write's cluster that replied first has to come before one of the other's."""
    (a, b), (before, after), events = pair_of(register, gap, key), writes, gap["events"]
    need(is_in_cluster(a, before) and is_in_cluster(b, after), f"`{key}` of `gap` is not of the two clusters")
    cluster = next(each for each in clusters_of(register) if each.write is before)
    need(a is cluster.first_reply,
         f"line {a.line}, in `{key}` of `gap`, isn't the first of its cluster to end")
    need(must_come_before(within(events), a, b, places),
         f"`gap` is less than {events} events, by `{key}`: line {a.line} doesn't have to come before line "
         f"{b.line} if reads may be younger than that")
