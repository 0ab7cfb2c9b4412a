"""Calls and what ended them, where the source is a log of events in the order of time."""
from typing import Any, Hashable, Optional

from regkit.convert.model import Client, Refused, SourceOperation


class Pairing:
    """Pairs each ending with its call: that of its client, or of an identity that the log gives."""

    def __init__(self, ends_with_crash: bool = False) -> None:
        self.steps: list[SourceOperation] = []
        self.open: dict[Hashable, SourceOperation] = {}
        self.lost: dict[Hashable, tuple[int, int]] = {}  # the lines of a call and of its unknown outcome
        self.crashed: Optional[dict[Client, int]] = {} if ends_with_crash else None

    def call(self, operation: SourceOperation, identity: Optional[Hashable] = None) -> None:
        if self.crashed:
            self.refuse_crashed(operation.client, operation.line)
        found = self.open.setdefault(operation.client if identity is None else identity, operation)
        self.lost.pop(operation.client if identity is None else identity, None)
        if found is not operation:
            raise Refused(f"client {operation.client} calls while its call of line {found.line} is open: the "
                          "log must end that call first, or the client go on under another number",
                          operation.line)
        self.steps.append(operation)

    def called(self, client: Client, line: int, identity: Optional[Hashable] = None) -> SourceOperation:
        """The open call of a client. Raises Refused if there is none."""
        if self.crashed:
            self.refuse_crashed(client, line)
        who = client if identity is None else identity
        found = self.open.get(who)
        if found is None and who in self.lost:
            call, end = self.lost[who]
            raise Refused(f"client {client} has no open call: that of line {call} ended at line {end} with "
                          f"an unknown outcome. If this is its late answer, delete line {end} to take the "
                          "answer, or this line to leave the outcome unknown", line)
        if found is None:
            raise Refused(f"client {client} has no open call that this could end: is the log's beginning "
                          "missing?", line)
        return found

    def end(self, line: int, client: Client, ending: Optional[str], answer: Any,
            identity: Optional[Hashable] = None) -> None:
        """Ends the open call of a client; without an ending its outcome stays unknown."""
        operation = self.called(client, line, identity)
        del self.open[client if identity is None else identity]
        if ending is None:
            self.lost[client if identity is None else identity] = operation.line, line
        else:
            operation.ending, operation.end_line, operation.answer = ending, line, answer
            self.steps.append(operation)

    def crash(self, line: int, client: Client) -> SourceOperation:
        """Ends a client, with its open call if it has one. Returns that call, or the crash alone."""
        if self.crashed is not None:
            self.refuse_crashed(client, line)
            self.crashed[client] = line
        operation = self.open.pop(client, None)
        if operation is None:
            operation = SourceOperation(line, client, "crash", None, None)
        else:
            operation.ending, operation.end_line = "crash", line
            self.lost[client] = operation.line, line
        self.steps.append(operation)
        return operation

    def refuse_crashed(self, client: Client, line: int) -> None:
        if self.crashed and client in self.crashed:
            raise Refused(f"client {client} crashed at line {self.crashed[client]}: let it go on under "
                          "another number", line)
