"""Elements of SVG as text. Attributes are escaped here, so that no caller can forget it."""
import html
from typing import Union

Value = Union[str, int, float]


def number(value: float) -> str:
    """At most one decimal: a tenth of a pixel is fine enough."""
    text = f"{value:.1f}"
    return text[:-2] if text.endswith(".0") else text


def tag(kind: str, content: str = "", **attributes: Value) -> str:
    """An element. `content` is markup; an attribute's name may end in `_` and has `_` in place of `-`."""
    words = []
    for key, value in attributes.items():
        text = html.escape(value, quote=True) if isinstance(value, str) else number(value)
        if text:
            words.append(f' {key.rstrip("_").replace("_", "-")}="{text}"')
    return f"<{kind}{''.join(words)}>{content}</{kind}>" if content else f"<{kind}{''.join(words)}/>"


def text(x: float, y: float, words: str, class_: str) -> str:
    """A line of text. `words` is text, not markup."""
    return tag("text", html.escape(words, quote=True), class_=class_, x=x, y=y)


def title(words: str) -> str:
    """What a pointer sees that rests on the element around it."""
    return tag("title", html.escape(words, quote=True))
