"""How values are spelled: what two of them may have in common that are of different kinds.

A client may write 1 and read "1", 1.0 or 1M, write {"a":1} and read { "a": 1 }, or true and True.
"""
import re
from decimal import Decimal
from typing import Any, Optional

from regkit.convert import edn
from regkit.convert.json_values import as_edn, decoded
from regkit.convert.model import Value

_QUOTED = re.compile(r"""b?(["'])(.*)\1""", re.DOTALL)  # a text as JSON, EDN or Python shows it, or its bytes
_NUMBER = re.compile(r"([+-]?(?:[0-9]+\.?[0-9]*|\.[0-9]+)(?:[eE][+-]?[0-9]{1,3})?)[MN]?")
_TRUTHS = frozenset({"true", "false"})
_OPENING = frozenset("[{(")
# By the beginning of what EDN writes, the kind of a value; of a text, what its spelling looks like.
_KINDS = ((r'"', "texts"), (r":", "keywords"), (r"\[", "vectors"), (r"\{", "maps"), (r"#\{", "sets"),
          (r"#", "tagged values"), (r"\\", "characters"), (r"(?:true|false)$", "truth values"),
          (r"-?[0-9]+$", "whole numbers"), (r"[+-]?[.0-9]", "other numbers"))


def spelled(value: Any) -> str:
    """A value as a person would spell it in an option: a text by itself, all else as EDN writes it."""
    return value if type(value) is str else edn.write(value)


def unquoted(value: Any) -> str:
    """How a value is spelled without quotes and colon."""
    text = spelled(value).strip()
    quoted = _QUOTED.fullmatch(text)
    return quoted[2] if quoted else text.lstrip(":")


def bare(value: Any) -> str:
    """How a value is spelled without what only tells its kind: quotes, a colon, how a number is written, or
    how JSON is spaced."""
    if type(value) is int:
        return str(value)
    text = unquoted(value)
    if text.lower() in _TRUTHS:
        return text.lower()
    return number_of(text) or (_respaced(text) if type(value) is str else text)


def _respaced(text: str) -> str:
    """A text of JSON or EDN as EDN writes it, if it is one."""
    whole = parsed(text)
    try:
        return text if whole is None else edn.write(whole)
    except RecursionError:
        return text


def number_of(text: str) -> Optional[str]:
    """A number in its plainest form, such as 3 of 3.0, 03, 3M and 3e0; None if the text is no number."""
    found = _NUMBER.fullmatch(text)
    if found is None:
        return None
    plain = format(Decimal(found[1]), "f")
    if "." in plain:
        plain = plain.rstrip("0").rstrip(".")
    return "0" if plain == "-0" else plain


def parsed(text: str) -> Any:
    """The vector, list or map that a text spells as JSON or EDN; None if it spells none."""
    text = text.strip()
    if text[:1] not in _OPENING:
        return None
    try:
        return as_edn(decoded(text))
    except (ValueError, RecursionError):
        pass
    try:
        values = [value for _, value in edn.values([text])]
    except ValueError:
        return None
    return values[0] if len(values) == 1 else None


def kind_of(value: Value) -> str:
    """The kind of a settled value, in words."""
    text = edn.write(value) if type(value) is not str else value
    kind = next((kind for begins, kind in _KINDS if re.match(begins, text)), "symbols")
    if kind != "texts":
        return kind
    text = text[1:-1].strip()
    if text.lower() in _TRUTHS:
        return "texts of truth values"
    if number_of(text) is not None:
        return "texts of numbers"
    if text[:1] in _OPENING:
        return "texts of collections"
    return "texts of bytes or in quotes" if _QUOTED.fullmatch(text.replace('\\"', '"')) else "texts"
