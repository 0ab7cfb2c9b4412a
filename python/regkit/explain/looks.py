"""What an input that isn't a history looks like, and how to make one of it."""
import json
import re
from typing import Optional

from regkit.history.inputs import LOOKED_AT, STANDARD_INPUT
from regkit.words.quoting import plain

PACKED = [(b"\x1f\x8b", "gzip", "gzip -dc"), (b"\x28\xb5\x2f\xfd", "zstd", "zstd -dc"),
          (b"BZh", "bzip2", "bzip2 -dc"), (b"\xfd7zXZ\x00", "xz", "xz -dc"),
          (b"PK\x03\x04", "a zip archive", "unzip -p")]
UTF_16 = (b"\xff\xfe", b"\xfe\xff")
TABLE = re.compile(rb"\s*\"?[A-Za-z_][\w .-]*\"?([,;\t])\"?[A-Za-z_][\w .\-\",;\t]*\r?\n")


def shell_name(name: str) -> str:
    """The file as it stands in a command that is shown."""
    if name == STANDARD_INPUT:
        return "FILE"
    if re.fullmatch(r"[\w./+:@%=-]+", name):
        return plain(name)
    return "'" + plain(name.replace("'", "'\\''")) + "'"


def packed(beginning: bytes, file: str) -> Optional[str]:
    """Files that are compressed, by their first bytes."""
    for magic, what, command in PACKED:
        if beginning.startswith(magic):
            return f"this looks like {what}: unpack it, as in `{command} {file} | regkit check`"
    return None


def encoded(beginning: bytes, file: str) -> Optional[str]:
    """Text whose first bytes say how it is encoded."""
    if beginning.startswith(UTF_16):
        return f"this looks like UTF-16: make it UTF-8, as in `iconv -f UTF-16 {file} | regkit check`"
    return None


def table(beginning: bytes) -> Optional[str]:
    """A table that doesn't name the columns that are needed. Others are converted without a word."""
    if TABLE.match(beginning) is None:
        return None
    return ("this looks like a table: `regkit convert --from csv` says what its columns have to be, and "
            "--columns which is which")


def is_json(text: bytes) -> bool:
    try:
        json.loads(text)
    except (ValueError, RecursionError):
        return False
    return True


def nearly(history: bytes) -> Optional[str]:
    """JSON, but not one object a line."""
    beginning = history[:LOOKED_AT].lstrip()
    if beginning.startswith(b"["):
        return "this looks like a JSON array: write each event on one line, as `jq -c '.[]'` does"
    if beginning.startswith(b"{") and not is_json(beginning.split(b"\n")[0]) and is_json(history):
        return "this is one JSON object over several lines: write each event on one line, as `jq -c` does"
    return None


def binary(beginning: bytes) -> Optional[str]:
    """Bytes of which a tenth are no text, as in an image or a database's own file."""
    text = beginning.decode("utf-8", "replace")
    odd = sum(each == "\ufffd" or (ord(each) < 32 and each not in "\t\r\n") for each in text)
    if odd * 10 <= len(text):
        return None
    return "this looks like binary data: a history is text, with one JSON object on each line"


def looks_like(history: bytes, name: str) -> Optional[str]:
    """What the input looks like and what to do about it, or None if it looks like lines of JSON."""
    beginning, file = history[:LOOKED_AT], shell_name(name)
    return (packed(beginning, file) or encoded(beginning, file) or table(beginning) or nearly(history)
            or binary(beginning))
