"""Any text made safe to print. Names of registers and files are any text, and a terminal obeys some
characters: control characters move the cursor, others turn the text beside them around. Such characters
are shown as escapes."""
import unicodedata

RIGHT_TO_LEFT = {"R", "AL", "AN"}  # the directions of letters that turn around the numbers beside them
ELLIPSIS = "\u2026"


def is_plain(character: str) -> bool:
    """Whether the character shows as itself and leaves all others where they are."""
    return character.isprintable() and unicodedata.bidirectional(character) not in RIGHT_TO_LEFT


def escaped(character: str) -> str:
    """The character as JSON writes it, beyond U+FFFF as Python does."""
    number = ord(character)
    return f"\\u{number:04x}" if number <= 0xFFFF else f"\\U{number:08x}"


def plain(text: str) -> str:
    """The text with an escape for each character that isn't plain."""
    return "".join(each if is_plain(each) else escaped(each) for each in text)


def columns(text: str) -> int:
    """How many letters wide a text is shown: letters of the Far East, and pictures, are two wide."""
    return sum(0 if unicodedata.combining(each) else 2 if unicodedata.east_asian_width(each) in "WF" else 1
               for each in text)


def quoted(name: str) -> str:
    """The name in quotation marks, so that one sees where it ends."""
    return '"' + plain(name.replace("\\", "\\\\").replace('"', '\\"')) + '"'


def shortened(text: str, longest: int) -> str:
    """The text, without its middle if it is longer."""
    if len(text) <= longest:
        return text
    head = (longest - 1) // 2
    return text[:head] + ELLIPSIS + text[len(text) - (longest - 1 - head):]
