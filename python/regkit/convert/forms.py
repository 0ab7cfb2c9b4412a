"""Which form a source has, by how it begins. One that may have two forms is refused, never guessed."""
import json
import re
from typing import Any, Iterator, NamedTuple, Optional

from regkit.convert import tables
from regkit.convert.jepsen_lines import has_events
from regkit.convert.model import Refused, folded

_EDN = re.compile(r"(?:\s|;.*)*(?:[\[(]\s*)?(?:#[\w./-]+\s*)?\{\s*:[a-zA-Z]")
_PORCUPINE_LOG = re.compile(
    r":f\s+:(?:get|put|append)\b[^}]*:key\s|:key\s[^}]*:f\s+:(?:get|put|append)\b")
_OBJECT = re.compile(r'\s*(?:\[\s*)?(?=\{\s*["}])')
_NAMES = re.compile(r'"(\w+)"\s*:')
_LEAST_COLUMNS = 2  # of the names that convert knows, in the first row of a table
_JEPSEN = b"JEPSEN"  # how test.jepsen begins


class Form(NamedTuple):
    """A form of `--from`, and what a person calls a source that has it."""

    name: str
    words: str


EVENTS = Form("jsonl", "events, a JSON object a line")
_OPERATIONS = Form("operations", "operations, a JSON object each")
_GO_OPERATIONS = Form("porcupine", "Porcupine's operations as JSON")
_GO_EVENTS = Form("porcupine", "Porcupine's events as JSON")
_JSON = (  # the members of an object of each form
    (frozenset({"call", "input"}), _GO_OPERATIONS),
    (frozenset({"call", "clientid"}), _GO_OPERATIONS),
    (frozenset({"kind", "value", "clientid"}), _GO_EVENTS),
    (frozenset({"kind", "value", "id"}), _GO_EVENTS),
    (frozenset({"type", "f", "process"}), Form("jepsen", "Jepsen's history as JSON")),
    (frozenset({"event", "process"}), EVENTS),
    (frozenset({"start", "op"}), _OPERATIONS),
    (frozenset({"end", "duration", "op"}), _OPERATIONS),
)


def refuse_binary(beginning: bytes) -> None:
    """Raises Refused for a file that no reader takes, and that has a better one beside it."""
    if beginning.startswith(_JEPSEN):
        raise Refused("this is the binary file that Jepsen keeps for itself: take history.edn, which is in "
                      "the same folder")


def forms_of(beginning: bytes) -> list[Form]:
    """The forms that a source may have. Raises Refused if it is binary or empty."""
    refuse_binary(beginning)
    text = beginning.decode("utf-8-sig", "replace")
    if not text.strip():
        raise Refused("the source is empty: is it the right file?")
    return list(dict.fromkeys(_candidates(text)))


def form_of(beginning: bytes) -> Form:
    """The one form of a source. Raises Refused."""
    found = forms_of(beginning)
    if found:
        return one_of(found)
    members = _members(beginning.decode("utf-8-sig", "replace"))
    has = f": its first object has {', '.join(members)}" if members else ""
    raise Refused(f"this looks like none of the forms that --from names{has}. If it is one of them, say "
                  "which; of a table, the first row has to name the columns, and --columns says which is "
                  "which")


def one_of(found: list[Form]) -> Form:
    """The one form that fits. Raises Refused if several do."""
    if len(found) > 1:
        both = " or ".join(f"{form.words} (--from {form.name})" for form in found)
        raise Refused(f"the source may be {both}: say to `regkit convert` which it is")
    return found[0]


def _candidates(text: str) -> Iterator[Form]:
    """Each form that fits, perhaps several times."""
    members = _members(text)
    if members is not None:
        names = {folded(name) for name in members}
        yield from (form for own, form in _JSON if own <= names)
    elif _EDN.match(text):
        yield (Form("porcupine", "Porcupine's log of a key-value store") if _PORCUPINE_LOG.search(text)
               else Form("jepsen", "Jepsen's history as EDN"))
    else:
        if tables.names_columns(text.lstrip().split("\n")[0].strip()) >= _LEAST_COLUMNS:
            yield Form("csv", "a table")
        if has_events(text.split("\n")):
            yield Form("jepsen", "lines of Jepsen's log")


def _members(text: str) -> Optional[list[str]]:
    """The names in the first object of JSON; None if there is no such object."""
    found = _OBJECT.match(text)
    if found is None:
        return None
    try:
        first: Any = json.JSONDecoder().raw_decode(text, found.end())[0]
    except (ValueError, RecursionError):
        return _NAMES.findall(text)  # it is cut, or no JSON, as its reader will say
    return list(first)
