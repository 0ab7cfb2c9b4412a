"""The folder of a split history: its files, and the manifest that says how the history was split."""
import json
import mmap
import os
import pathlib
from typing import NamedTuple, Optional

MAX_PARTS = 1000
FORMAT = "regkit split 2"
MANIFEST = "split.json"
BLANK, MAP = "blank", "map"  # what keeps the line numbers of the whole: blank lines, or a map beside the part
MAP_LINE = 13  # bytes of a line of a map: a number of up to 12 digits, with spaces before it, and a line feed


class NotSplit(Exception):
    """The folder has no manifest, or one that this program doesn't know."""


class Manifest(NamedTuple):
    """What the engines and `join` need to know of the whole history."""

    history: str  # the name of its file
    lines: str  # BLANK or MAP
    parts: int
    program: str  # for all parts: regcheck, regsearch or reglevel
    events: int  # of the whole history, each counted once
    last_line: int  # the last line that was read
    stopped: Optional[int]  # the line that was sure to be refused; nothing after it was read
    registers: list[int]  # the part of each register, in the order of their first calls


def file_of(directory: str, part: int, ending: str) -> pathlib.Path:
    """A file of a part: `jsonl`, `lines`, and what a run of it leaves, `report`, `err` and `status`."""
    return pathlib.Path(directory) / f"part-{part:03}.{ending}"


def write_manifest(directory: str, manifest: Manifest) -> None:
    """Written last and at once, so that a folder with a manifest is whole."""
    path = pathlib.Path(directory) / MANIFEST
    unfinished = path.with_suffix(".new")
    told: dict[str, object] = {"format": FORMAT, **manifest._asdict()}
    unfinished.write_text(json.dumps(told, separators=(",", ":")) + "\n", encoding="utf-8")
    os.replace(unfinished, path)


def read_manifest(directory: str) -> Manifest:
    path = pathlib.Path(directory) / MANIFEST
    try:
        told = json.loads(path.read_text(encoding="utf-8"))
        if told.pop("format") != FORMAT:
            raise NotSplit(f"{path} was written by another version of regkit: split the history again")
        return Manifest(**told)
    except FileNotFoundError:
        raise NotSplit(f"{path} is missing: regkit split did not finish there") from None
    except (ValueError, TypeError, KeyError, AttributeError):
        raise NotSplit(f"{path} is damaged: split the history again") from None


class LineMap:
    """Gives for a line of a part its line of the whole history. The map stays on disk."""

    def __init__(self, path: pathlib.Path) -> None:
        self.text: Optional[mmap.mmap] = None
        if path.stat().st_size:  # an empty file can't be mapped
            with open(path, "rb") as stream:
                self.text = mmap.mmap(stream.fileno(), 0, access=mmap.ACCESS_READ)

    def __call__(self, line: int) -> int:
        """Line 0, the initial write, is 0 in the whole as well."""
        if line == 0 or self.text is None:
            return line
        start = (line - 1) * MAP_LINE
        return int(self.text[start:start + MAP_LINE])
