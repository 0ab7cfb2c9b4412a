"""What all files of a release share: the machine, the version, times, rights, and the sums."""
import calendar
import hashlib
import os
import pathlib
import re
import struct
import time
from typing import Iterable, NamedTuple

from crates import ROOT

VERSION = (ROOT / "VERSION").read_text().strip()
CHANGELOG = (ROOT / "CHANGELOG.md").read_text()
SUMS = "SHA256SUMS"


class Machine(NamedTuple):
    """What a release is for, as Debian calls it and as Linux does."""

    debian: str
    linux: str


# By the number that the head of a program has for it.
MACHINES = {62: Machine("amd64", "x86_64"), 183: Machine("arm64", "aarch64")}


def machine_of(files: Iterable[pathlib.Path]) -> Machine:
    """The machine that the first program or shared library among the files is for."""
    for file in files:
        data = file.read_bytes()
        if data.startswith(b"\x7fELF"):
            return MACHINES[struct.unpack_from("<H", data, 18)[0]]
    raise SystemExit("no file is a program or a shared library")


def epoch() -> int:
    """The time of all files, in seconds since 1970: the version's in CHANGELOG.md, or SOURCE_DATE_EPOCH."""
    newest = re.search(r"^## \S+ \((.*)\)$", CHANGELOG, re.M)
    if newest is None:
        raise SystemExit("CHANGELOG.md: no heading names a version and its date")
    return int(os.environ.get("SOURCE_DATE_EPOCH", calendar.timegm(time.strptime(newest[1], "%Y-%m-%d"))))


def settle(tree: pathlib.Path) -> None:
    """Gives a tree's files the same time, and the rights that a release has, whatever the umask is."""
    for path in sorted([tree, *tree.rglob("*")], reverse=True):
        if not path.is_symlink():
            path.chmod(0o755 if path.is_dir() or path.stat().st_mode & 0o100 else 0o644)
        os.utime(path, (epoch(), epoch()), follow_symlinks=False)


def write_sums(folder: pathlib.Path) -> None:
    """Writes the sums of all files that are in the folder now."""
    files = sorted(path for path in folder.iterdir() if path.name != SUMS)
    sums = [f"{hashlib.sha256(file.read_bytes()).hexdigest()}  {file.name}\n" for file in files]
    (folder / SUMS).write_text("".join(sums))
    settle(folder)
