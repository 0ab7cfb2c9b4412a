"""Who made a call, and when: the members of a line that the checker ignores, and how a person reads them.

    {"process":65,"event":"reply","register":"x","client":"worker-3","node":"replica-1","time":12031000000}

`client` names who calls, and `node` the server that is asked. `time` counts the nanoseconds of a clock that
never goes back; people are shown the time since the first call of the history.
"""
import json
import re
from typing import Optional

from regkit.history.operations import Operation
from regkit.words.quoting import quoted, shortened

LONGEST, LONGEST_BESIDE = 40, 20  # characters of a name that are shown in a sentence, and beside a picture
SECOND, MILLISECOND = 10**9, 10**6  # nanoseconds
_WORD = re.compile(r"[\w.:@/+#-]+", re.ASCII)


def members(client: str = "", node: str = "", time: Optional[int] = None) -> str:
    """What a line says of them after its other members, in the order that is read fastest."""
    named = f',"client":{json.dumps(client)}' if client else ""
    asked = f',"node":{json.dumps(node)}' if node else ""
    return named + asked + ("" if time is None else f',"time":{time}')


def in_words(client: Optional[str], node: Optional[str], longest: int) -> list[str]:
    """`client worker-3` and `node replica-1`, as far as they are known, quoted if they aren't one word."""
    said = []
    for what, name in (("client", client), ("node", node)):
        if name is not None:
            name = shortened(name, longest)
            said.append(f"{what} {name if _WORD.fullmatch(name) else quoted(name)}")
    return said


def moment(time: int) -> str:
    """`at 12.031 s`, or in the first second `at 3.0 ms`."""
    if time < SECOND:
        return f"at {time // MILLISECOND}.{time * 10 // MILLISECOND % 10} ms"
    return f"at {time // SECOND}.{time // MILLISECOND % 1000:03} s"


def process_of(operation: Operation) -> str:
    """`process 65, client worker-3, node replica-1, at 12.031 s`, as far as it was recorded."""
    words = [f"process {operation.process}", *in_words(operation.client, operation.node, LONGEST)]
    return ", ".join(words if operation.time is None else [*words, moment(operation.time)])


def shared(calls: list[Operation]) -> str:
    """The client and the node of some calls, as far as all have the same."""
    clients, nodes = {call.client for call in calls}, {call.node for call in calls}
    return ", ".join(in_words(clients.pop() if len(clients) == 1 else None,
                              nodes.pop() if len(nodes) == 1 else None, LONGEST_BESIDE))
