"""Any text as text of a page. A register's name may hold markup, control characters, or letters that turn the
text beside them around; none of that may reach the reader as anything but itself."""
import html
import re
import unicodedata

from regkit.words.quoting import escaped, plain, shortened

LONGEST = 96  # characters of a name that are shown; the middle of a longer one is left out
MOST_MARKS = 2  # combining marks on one letter; more of them would climb over the lines above


def attribute(text: str) -> str:
    """The text for an attribute or a title, where nothing can isolate it: each letter that runs from right to
    left is an escape too."""
    return html.escape(plain(shortened(text, LONGEST)), quote=True)


def words(text: str) -> str:
    """A sentence of our own for the content of an element."""
    return html.escape(text, quote=True)


def with_code(text: str) -> str:
    """The same of a sentence that has words of a command line between backticks."""
    return re.sub("`(.*?)`", r"<code>\1</code>", words(text))


def name(text: str) -> str:
    """A register's or a file's name, isolated from what stands around it. Escapes look different from a
    name's own letters, so that a backslash in the name isn't taken for one."""
    pieces: list[str] = []
    marks = MOST_MARKS  # so that a mark without a letter before it is an escape
    for character in shortened(text, LONGEST):
        is_mark = unicodedata.category(character).startswith("M")
        marks = marks + 1 if is_mark else 0
        if character.isprintable() and marks <= MOST_MARKS:
            pieces.append(html.escape(character, quote=True))
        else:
            pieces.append(f'<span class="escape">{escaped(character)}</span>')
    return f'<bdi class="name">{"".join(pieces)}</bdi>'
