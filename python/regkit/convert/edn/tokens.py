"""Lines as tokens."""
import itertools
import re
from typing import Iterator

from regkit.convert.edn.kinds import NotEdn

# Every character but a blank or a comma begins a token, and so does the end: `finditer` skips nothing.
_TOKEN = re.compile(
    r"[\s,]*("
    r'"(?:[^"\\]|\\.)*"|".*'  # a text; one that goes on in the next line takes all the rest of this one
    r"|\#\{|\#_|[\[\](){}]"
    r'|\#[^\s,\[\](){}";]*'
    r"|\\(?:newline|space|tab|return|formfeed|backspace|u[0-9a-fA-F]{4}|.)?"
    r"|;[^\n]*"
    r'|[^\s,\[\](){}";\\]+'
    r"|\Z)", re.DOTALL)
_WHOLE_TEXT = re.compile(r'"(?:[^"\\]|\\.)*"', re.DOTALL)
_AT_ONCE = 10_000  # tokens


def _unfinished(token: str) -> bool:
    """Whether a token is a text without its closing quote."""
    return token[:1] == '"' and not _WHOLE_TEXT.fullmatch(token)


def tokens_of(line: str, more: Iterator[tuple[int, str]], number: int) -> Iterator[list[str]]:
    """The tokens of a line, some thousands at once, and of those after it if a text goes on there."""
    found = _TOKEN.finditer(line.rstrip("\n"))
    tokens = _some(found)
    while tokens:
        if _unfinished(tokens[-1]):
            found = _TOKEN.finditer(_joined(tokens.pop(), more, number))
        yield tokens
        tokens = _some(found)


def _some(found: Iterator["re.Match[str]"]) -> list[str]:
    """The next tokens. What matches at the end, after blanks, is no token."""
    return [match[1] for match in itertools.islice(found, _AT_ONCE) if match[1]]


def _joined(line: str, more: Iterator[tuple[int, str]], number: int) -> str:
    """A line and those after it, up to the next with a quote, where its open text may end."""
    held = [line]
    for _, behind in more:
        held.append(behind.rstrip("\n"))
        if '"' in behind:
            return "\n".join(held)
    raise NotEdn(number, "a text without its closing quote")
