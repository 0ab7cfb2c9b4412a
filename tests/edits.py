"""The wrong bodies in crates/*/must-fail and crates/*/more-edits: what each changes, and in which function.

An edit is a file of lines `file: PATH`, `old: TEXT` and `new: TEXT`, as `rt ci` reads it: each old text
stands in its file exactly once, and a further pair applies to what the earlier ones made. Each text is one
line, so an edit changes lines and adds none."""
import pathlib
import re
from typing import Dict, FrozenSet, List, NamedTuple, Optional

ROOT = pathlib.Path(__file__).resolve().parent.parent
MUST_FAIL, MORE_EDITS = "must-fail", "more-edits"
TIERS = (MUST_FAIL, MORE_EDITS)
CRATE = re.compile(r"^(\w+)([^#\n:]*):([^#\n]*)", re.MULTILINE)
HEAD = re.compile(r'( *)(?:pub(?:\(\w+\))? )?(?:(?:const|unsafe|extern "C") )*fn (\w+)')


class BadEdit(Exception):
    """An edit that can't be applied. Its text says which and why."""


class Place(NamedTuple):
    """A line of a crate, counted from 1."""

    file: str
    line: int


class Function(NamedTuple):
    """A function of a crate, and the lines of its body, from the one with the opening brace."""

    file: str
    name: str
    first: int
    last: int


class Edit(NamedTuple):
    """The lines that an edit changes, and the functions whose bodies hold them: none if not
    all are in one."""

    crate: str
    tier: str
    name: str
    lines: Dict[Place, str]
    functions: FrozenSet[Function]

    def __str__(self) -> str:
        return f"{self.crate}/{self.tier}/{self.name}.edit"


def crates() -> Dict[str, List[str]]:
    """The crates, lowest first, and those that each names."""
    rows = CRATE.findall((ROOT / "crates.txt").read_text())
    names = [name for name, _, _ in rows]
    return {name: [low for low in uses.split() if low in names] for name, _, uses in rows}


def body(lines: List[str], start: int, indent: str) -> Optional[range]:
    """The lines of the body of the function whose head is at start, in the layout of `rt fmt`."""
    for first in range(start, len(lines)):
        line = lines[first]
        if first > start and (HEAD.match(line) or line.strip() and not line.startswith(indent)):
            return None
        if line.endswith("{}") and first == start:
            return range(first, first + 1)
        if line.endswith("{") and line.startswith(indent) and not line[len(indent)].isspace():
            return range(first, lines.index(indent + "}", first) + 1)
    return None


def functions_of(file: str, lines: List[str]) -> List[Function]:
    """The functions of a file that have a body, but for those inside another one."""
    found: List[Function] = []
    for number, line in enumerate(lines):
        head = HEAD.match(line)
        if head and (not found or found[-1].last <= number):
            inside = body(lines, number, head[1])
            if inside:
                found.append(Function(file, head[2], inside.start + 1, inside.stop))
    return found


def pairs_of(edit: pathlib.Path) -> List[List[str]]:
    """The file, the old text and the new text of each of an edit's pairs."""
    pairs, file, old = [], "", ""
    for line in edit.read_text().splitlines():
        key, _, text = line.partition(": ")
        if key == "file":
            file = text
        elif key == "old":
            old = text
        elif key in ("new", "new:") and file and old:
            pairs.append([file, old, text])
            old = ""
        else:
            raise BadEdit(f"{edit.relative_to(ROOT)}: what is its line {line!r}? "
                          "Write 'file: PATH', and then pairs of 'old: TEXT' and 'new: TEXT'")
    if not pairs or old:
        raise BadEdit(f"{edit.relative_to(ROOT)}: it doesn't end in lines 'old: TEXT' and 'new: TEXT'")
    return pairs


def changed_files(edit: pathlib.Path) -> Dict[str, List[str]]:
    """The lines of the files that an edit changes, as it leaves them."""
    texts: Dict[str, str] = {}
    for file, old, new in pairs_of(edit):
        source = edit.parent.parent / file
        if file not in texts:
            if not source.is_file():
                raise BadEdit(f"{edit.relative_to(ROOT)}: there is no file {file}")
            texts[file] = source.read_text()
        count = texts[file].count(old)
        if count != 1:
            raise BadEdit(f"{edit.relative_to(ROOT)}: its old text stands {count} times in {file}, "
                          f"and not once: {old}")
        texts[file] = texts[file].replace(old, new)
    return {file: text.split("\n") for file, text in texts.items()}


def read(edit: pathlib.Path) -> Edit:
    """What an edit changes."""
    crate, changed, touched, is_inside = edit.parent.parent, {}, set(), True
    for file, lines in changed_files(edit).items():
        olds = (crate / file).read_text().split("\n")
        functions = functions_of(file, olds)
        for number, (old, new) in enumerate(zip(olds, lines), 1):
            if old == new:
                continue
            changed[Place(file, number)] = new
            inside = [it for it in functions if it.first <= number <= it.last]
            # On the line that opens a body, what stands before it is the signature, which callers read.
            is_inside = is_inside and bool(inside) and (number != inside[0].first or new.startswith(old))
            touched.update(inside)
    if not changed:
        raise BadEdit(f"{edit.relative_to(ROOT)}: it changes nothing")
    return Edit(crate.name, edit.parent.name, edit.stem, changed, frozenset(touched if is_inside else ()))


def paths_of(crate: str, *tiers: str) -> List[pathlib.Path]:
    """The files of a crate's edits, of both tiers if none is named."""
    folders = [ROOT / "crates" / crate / tier for tier in tiers or TIERS]
    return [path for folder in folders for path in sorted(folder.glob("*.edit"))]
