"""What a token by itself stands for: a text in quotes, or a number."""
import re
from decimal import Decimal

from regkit.convert.edn.kinds import NotEdn, Symbol, Value

_WHOLE = re.compile(r"[+-]?(?:0|[1-9][0-9]*)N?")
_DECIMAL = re.compile(r"[+-]?[0-9]+(?:\.[0-9]*)?(?:[eE][+-]?[0-9]+)?")
_HEX = re.compile(r"[+-]?0[xX][0-9a-fA-F]+N?")
_OTHER_NUMBER = re.compile(r"[+-]?[0-9]+(?:\.[0-9]*)?(?:[eE][+-]?[0-9]+)?M|[+-]?[0-9]+/[0-9]+")
_ESCAPE = re.compile(r"\\(u[0-9a-fA-F]{4}|.)", re.DOTALL)
_ESCAPED = {"n": "\n", "t": "\t", "r": "\r", "b": "\b", "f": "\f", '"': '"', "\\": "\\"}


def text_of(token: str, line: int) -> str:
    """The text that a token in quotes stands for. The halves of a surrogate pair become their character."""
    if "\\" not in token:
        return token[1:-1]

    def unescape(found: "re.Match[str]") -> str:
        name = found[1]
        if len(name) == 5:
            return chr(int(name[1:], 16))
        if name not in _ESCAPED:
            raise NotEdn(line, f"\\{name} is no escape")
        return _ESCAPED[name]

    plain = _ESCAPE.sub(unescape, token[1:-1])
    return plain.encode("utf-16", "surrogatepass").decode("utf-16", "surrogatepass")


def number_of(token: str, line: int) -> Value:
    if _WHOLE.fullmatch(token):
        return int(token.rstrip("N"))
    if _DECIMAL.fullmatch(token) and not token.lstrip("+-").isdigit():
        return Decimal(token)
    if _HEX.fullmatch(token):
        return int(token.rstrip("N"), 16)
    if _OTHER_NUMBER.fullmatch(token):
        return Symbol(token)
    raise NotEdn(line, f"{token} is no number")
