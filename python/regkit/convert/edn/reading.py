"""Lines as values.

It reads line by line, so that a long history is never in memory as one text, and it keeps a stack of its own,
so that depth costs nothing.
"""
import re
from typing import Iterable, Iterator, Optional

from regkit.convert.edn.atoms import number_of, text_of
from regkit.convert.edn.kinds import Keyword, Map, NotEdn, Set, Symbol, Tagged, Value, write
from regkit.convert.edn.tokens import tokens_of

# A line that is one map or record of words, numbers and short texts, and perhaps of one vector of such. Most
# lines of a history are, and reading them as such is faster.
_WORDS = r'[^"#;\\()\[\]{}]*(?:(?<![^\s,\[{])"[^"#;\\()\[\]{}\s,]*"(?![^\s,\]}])[^"#;\\()\[\]{}]*)*'
_FLAT = re.compile(
    rf"\s*(?:#([a-zA-Z][\w./-]*)\s*)?\{{({_WORDS})(?:\[({_WORDS})\]({_WORDS}))?\}}\s*")
_NUMBER_START = re.compile(r"[+-]?[0-9]")
_CLOSING = {"[": "]", "(": ")", "{": "}", "#{": "}"}
_MOST_WORDS = 10_000  # keywords kept; a history that has more of them makes them anew
_ABSENT = object()


def _map(items: list[Value], line: int) -> Map:
    if len(items) % 2:
        raise NotEdn(line, "a map with a key and no value")
    made = Map(zip(items[::2], items[1::2]))
    if 2 * len(made) < len(items):
        keys = items[::2]
        twice = next(key for key in keys if keys.count(key) > 1)
        raise NotEdn(line, f"a map with the key {write(twice)} twice")
    made.line = line
    return made


class _Reader:
    """What is open between two lines."""

    def __init__(self, elements: bool) -> None:
        self.elements = elements
        self.wrapper: Optional[tuple[str, int]] = None  # the vector at the top that gives its elements
        self.words: dict[str, Value] = {"nil": None, "true": True, "false": False, "0": 0}
        self.stack: list[tuple[str, list[Value], int, list[str]]] = []
        self.items: list[Value] = []  # of the innermost open collection, or of the top
        self.prefixes: list[str] = []  # tags and discards that wait for their value

    def read(self, tokens: list[str], line: int) -> None:
        """Reads some tokens of a line."""
        words, items, prefixes = self.words, self.items, self.prefixes
        for token in tokens:
            value = words.get(token, _ABSENT)
            if value is _ABSENT:
                number = token[0] != "0" and token.isdecimal() and token.isascii()
                value = int(token) if number else self.special(token, line)
                items, prefixes = self.items, self.prefixes
                if value is _ABSENT:
                    continue
            if prefixes:
                self.prefixed(value)
            else:
                items.append(value)

    def flat(self, found: "re.Match[str]", line: int) -> Value:
        """The map or record of a flat line."""
        items = self.flat_words(found[2], line)
        if found[3] is not None:
            items.append(tuple(self.flat_words(found[3], line)))
            items += self.flat_words(found[4], line)
        value = _map(items, line)
        return Tagged(found[1], value) if found[1] else value

    def flat_words(self, text: str, line: int) -> list[Value]:
        words = self.words
        return [words[token] if token in words else
                int(token) if token[0] != "0" and token.isdecimal() and token.isascii() else
                self.atom(token, line) for token in text.replace(",", " ").split()]

    def special(self, token: str, line: int) -> Value:
        """What a token completes, if it completes a value: brackets that open, tags and comments don't."""
        first = token[0]
        if first in "])}":
            return self.close(token, line)
        if first in "[({" or token == "#{":
            self.open(token, line)
        elif first == "#" and token[:2] not in ("##", "#'"):
            self.prefixes.append(token)
        elif first != ";":
            return self.atom(token, line)
        return _ABSENT

    def open(self, token: str, line: int) -> None:
        at_top = not self.stack and self.wrapper is None
        if self.elements and at_top and token in "[(" and "#_" not in self.prefixes:
            self.wrapper = (token, line)
            self.prefixes.clear()
            return
        self.stack.append((token, self.items, line, self.prefixes))
        self.items, self.prefixes = [], []

    def close(self, token: str, line: int) -> Value:
        """The collection that a bracket closes; absent if it's the one that gives its elements."""
        if self.prefixes:
            raise NotEdn(line, f"{self.prefixes[-1]} stands before no value")
        if not self.stack and self.wrapper is not None and _CLOSING[self.wrapper[0]] == token:
            self.wrapper = None
            return _ABSENT
        if not self.stack or _CLOSING[self.stack[-1][0]] != token:
            raise NotEdn(line, f"{token} closes nothing")
        items = self.items
        opening, self.items, began, self.prefixes = self.stack.pop()
        if opening == "{":
            return _map(items, began)
        return Set(items) if opening == "#{" else tuple(items)

    def prefixed(self, value: Value) -> None:
        while self.prefixes:
            prefix = self.prefixes.pop()
            if prefix == "#_":
                return
            value = Tagged(prefix[1:], value)
        self.items.append(value)

    def atom(self, token: str, line: int) -> Value:
        first = token[0]
        if first == '"':
            if self.prefixes[-1:] == ["#"]:  # a pattern, whose backslashes aren't those of a text
                return Symbol(self.prefixes.pop() + token)
            return text_of(token, line)
        if first == ":":
            if len(token) == 1:
                raise NotEdn(line, "a colon without a name")
            word = Keyword(token)
            if len(self.words) < _MOST_WORDS:
                self.words[token] = word
            return word
        if first == "\\" and len(token) == 1:
            raise NotEdn(line, "\\ without a character")
        return number_of(token, line) if _NUMBER_START.match(token) else Symbol(token)

    def done(self) -> list[Value]:
        """What ended at the top since the last time."""
        if self.stack or not self.items:
            return []
        done, self.items = self.items, []
        return done

    def end(self, line: int) -> None:
        if self.stack:
            raise NotEdn(self.stack[-1][2], f"{self.stack[-1][0]} is never closed")
        if self.wrapper is not None:
            raise NotEdn(self.wrapper[1], f"{self.wrapper[0]} is never closed")
        if self.prefixes:
            raise NotEdn(line, f"{self.prefixes[-1]} stands before no value")


def values(lines: Iterable[str], elements: bool = False) -> Iterator[tuple[int, Value]]:
    """Each value at the top, with the number of its line. Raises NotEdn.

    With `elements`, a vector or list at the top gives its elements, one by one, in its place.
    """
    reader = _Reader(elements)
    number = 0
    numbered = iter(enumerate(lines, 1))
    for number, line in numbered:
        flat = None if reader.stack or reader.prefixes else _FLAT.fullmatch(line)
        if flat is not None:
            yield number, reader.flat(flat, number)
            continue
        for tokens in tokens_of(line, numbered, number):
            reader.read(tokens, number)
            yield from ((_line_of(value, number), value) for value in reader.done())
    reader.end(number)


def _line_of(value: Value, line: int) -> int:
    """The line on which a value began, if it is a map; else the one on which it was read."""
    inner = value.value if type(value) is Tagged else value
    return inner.line if type(inner) is Map else line
