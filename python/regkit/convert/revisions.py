"""Puts by version where keys are deleted too, or put whatever their version is, as in etcd.

    put "a" that gave revision 7          a write of "a" as revision 7
    the same if the revision is 5         a cas from the one value of revision 5 to that
    create "a" that gave revision 7       a cas from null to that
    delete, delete if the revision is 5   a delete, and a cas from the one value of revision 5 to null

Each put that took place tells the revision that it gave, and no two give one; a delete that found a value
may tell its own. So each revision of a put has one value, and that the key has this revision is that it has
this value. A put of unknown outcome tells none: it gave a revision that others name, and that no other put
can have given, or one that nobody saw.

Revisions go up, so they tell the order of what overlaps, too (`revision_order`). Where a delete leaves open
which of two came first, the source is refused unless that is no matter (`revision_blocks`).
"""
from typing import Iterable, Optional

from regkit.convert import edn
from regkit.convert.model import CAS, DELETE, Choices, Refused, Source, SourceOperation, Value
from regkit.convert.revision_blocks import Blocks
from regkit.convert.revision_order import Order, named_by, shorten, spans_of
from regkit.convert.values import shown, unsettled

_TELL = ("let each put that takes place tell the revision that it gave, in a member that --new-revisions "
         "names, or leave out such keys with --ops WORD=other --skip-key")


def are_for(operations: Iterable[SourceOperation]) -> bool:
    """Whether something changes a key whatever its version is, or deletes it."""
    return any(each.kind == DELETE or each.clears or (each.kind == "write" and each.version is None)
               for each in operations)


def fold(source: Source, keys: list[list[SourceOperation]], choices: Choices) -> None:
    """Makes reads, writes, deletes and cas of the operations of keys."""
    spans = spans_of(source) if keys else {}
    orders = []
    for operations in keys:
        revisions = Revisions(operations, choices)
        order = Order(operations, revisions.given, spans)
        Blocks(operations, order, spans).settle()
        revisions.fold()
        orders.append(order)
    shorten(source, orders, spans)


class Revisions:
    """The operations of one key."""

    def __init__(self, operations: list[SourceOperation], choices: Choices) -> None:
        self.has_values = "value" not in choices.ignored
        self.operations = operations
        self.puts = [each for each in operations if each.kind == "write"]
        self.gets = [each for each in operations if each.kind == "read" and each.found is None]
        self._refuse_others()
        self.values: dict[int, Value] = {}
        self.given: dict[SourceOperation, int] = {}
        for put in self.puts:
            if put.ending == "reply" and not put.missed:
                self._take_told(put)
        self.deleted: set[int] = set()  # the revisions that deletes gave
        for each in operations:
            if (each.kind == DELETE or each.clears) and each.told_version is not None and not each.missed:
                self._take_deleted(each, each.told_version)
        self._give_unknown()
        self._refuse_unnamed()

    def _refuse_others(self) -> None:
        for each in self.operations:
            is_known = each.kind in ("write", "read", DELETE) or each.version is not None
            if not is_known or (each.kind == DELETE and each.tells_old):
                raise Refused(f"this {each.kind} of {shown(each.key)} asks for a value, or is answered one, "
                              "without its revision: let it name revisions, or leave out such keys with --ops "
                              "WORD=other --skip-key", each.line)
        for get in self.gets:
            if self.has_values and get.ending == "reply" and bool(get.version) != (get.value is not None):
                raise Refused("a get found a value without a revision, or a revision without a value",
                              get.end_line or get.line)

    def _take_told(self, put: SourceOperation) -> None:
        told = put.told_version
        if told is None:
            raise Refused(f"{shown(put.key)} is deleted, or put whatever its revision is, and this put "
                          f"doesn't tell the revision that it gave: {_TELL}", put.end_line or put.line)
        if told in self.values:
            raise Refused(f"two puts to {shown(put.key)} gave the revision {told}, and each gives one of its "
                          "own: are these revisions those of the puts?", put.end_line or put.line)
        self.values[told], self.given[put] = put.value, told

    def _take_deleted(self, delete: SourceOperation, told: int) -> None:
        if delete.kind == DELETE and not delete.found:
            raise Refused(f"this delete of {shown(delete.key)} has the revision {told}, and doesn't tell "
                          "that it found a value: only one that did gives a revision",
                          delete.end_line or delete.line)
        if told in self.values or told in self.deleted:
            raise Refused(f"this delete of {shown(delete.key)} gave the revision {told}, and so did another "
                          "change: are these revisions those of the changes?", delete.end_line or delete.line)
        self.deleted.add(told)
        self.given[delete] = told

    def _give_unknown(self) -> None:
        """Gives puts of unknown outcome the revisions that are named and that no other put gave."""
        orphans: dict[int, Optional[SourceOperation]] = {}  # with a get that has its value, if there is one
        for each in self.operations:
            for revision in named_by(each):
                if revision not in self.values and revision not in self.deleted:
                    orphans[revision] = each if each.kind == "read" else orphans.get(revision)
        for revision, get in orphans.items():
            may_be = [put for put in self.puts if put.ending in (None, "crash")
                      and (put.version or 0) < revision and (get is None or put.value == get.value)]
            if len(may_be) > 1 or any(put in self.given for put in may_be):
                raise Refused(f"several puts of unknown outcome may have given the revision {revision} of "
                              f"{shown(may_be[0].key)}, that of line {may_be[-1].line} too: let each put write a "
                              "value of its own", may_be[0].line)
            if get is not None or may_be:
                self.values[revision] = get.value if get is not None else may_be[0].value
            self.given.update(dict.fromkeys(may_be, revision))

    def _refuse_unnamed(self) -> None:
        """Raises Refused if an operation asks for a revision that a put of unknown outcome may have given, or
        not."""
        unseen = [put for put in self.puts if put.ending in (None, "crash") and put not in self.given]
        for each in self.operations:
            asked = each.version or 0
            if each.kind == "read" or each.ending == "fail" or not asked or asked in self.values or (
                    asked in self.deleted):
                continue
            put = next((put for put in unseen if put is not each and (put.version or 0) < asked), None)
            if put is not None:
                raise Refused(f"this {each.kind} asks for the revision {asked}, and nobody can tell whether "
                              f"the put of line {put.line} gave it, whose outcome is unknown: record the get "
                              "by which the client knew it", each.line)

    def fold(self) -> None:
        """Makes reads, writes, deletes and cas of the operations."""
        for each in self.operations:
            if each in self.gets:
                each.value = self._pair(each.version, each.value) if each.version else None
            elif each.missed and each.told_version is not None:
                each.kind, each.missed, each.value = "read", False, self._of(each.told_version)
            elif each.kind == "write":
                given = self.given.get(each)
                value = each.value
                if each.version is not None:
                    each.kind, each.expected = CAS, self._of(each.version)
                each.value = self._alone(each, value) if given is None else self._pair(given, value)
            elif each.kind == CAS:
                each.expected = self._of(each.version or 0)

    def _of(self, revision: int) -> Value:
        """The one value of a revision, as the history has it."""
        if not revision:
            return None
        if revision in self.values:
            return self._pair(revision, self.values[revision])
        return edn.write((revision, edn.Symbol("?")))

    def _pair(self, revision: int, value: Value) -> Value:
        return edn.write((revision, unsettled(value))) if self.has_values else revision

    def _alone(self, put: SourceOperation, value: Value) -> Value:
        """A value that no other operation names."""
        return edn.write((edn.Symbol(f"put-{put.line}"), unsettled(value)))
