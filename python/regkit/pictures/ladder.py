"""The levels as they lie above one another, from the strongest at the left, with what held."""
from typing import Optional

from regkit.checker.levels import CAUSAL, REQUIRED, Levels, kept, lacking
from regkit.checker.report import Row
from regkit.drawing import shapes, svg
from regkit.drawing.svg import tag, text
from regkit.pictures.canvas import Size, figure
from regkit.words.levels import WORDS, in_words
from regkit.words.phrases import counted

BOX = Size(300.0, 60.0)
COLUMN, ROW = 370.0, 74.0
PLACES = {"atomic": (0, 0.0), "regular": (1, 0.0), "session": (1, 2.0),  # column and row
          "own_writes": (2, 1.0), "monotonic": (2, 2.0), "sequential": (2, 3.0), "causal": (1, 3.0)}
STEPS = (("atomic", "regular"), ("atomic", "session"), ("session", "own_writes"), ("session", "monotonic"),
         ("session", "sequential"), ("atomic", "causal"), ("causal", "sequential"))
MARGIN = 3.0
WHOLE = Size(2 * COLUMN + BOX.width + 2 * MARGIN, 3 * ROW + BOX.height + 2 * MARGIN)
MEANINGS = {
    "atomic": "each read gives the latest write", "regular": "no read misses a write that had ended",
    "session": "each session only moves forward", "own_writes": "no session misses its own write",
    "monotonic": "no session goes back to an older value",
    "sequential": "all agree on one order of the writes",
    "causal": "no read misses a write that it knew of"}
BREACHES = {  # what happened where a level wasn't kept
    "atomic": "some read didn't give the latest write", "regular": "some read missed a finished write",
    "session": "some session went backward", "own_writes": "some session missed its own write",
    "monotonic": "some session went back to an older value",
    "sequential": "no one order of the writes fits all sessions",
    "causal": "some read missed a write that it knew of"}
CAPTION = ("Kept means that this run shows nothing against it; another run may. Each level implies those "
           "that its arrows lead to. The name in brackets is the one that --require takes. A register is a "
           "key. A session is a process of the history: one client, which waits for each reply. Causal is of "
           "all registers together: an operation knows of what its session did before, of the write whose "
           "value it read, and of what these knew of.")


def corner(level: str) -> tuple[float, float]:
    column, row = PLACES[level]
    return MARGIN + COLUMN * column, MARGIN + ROW * row


def whether_causal(summary: Row) -> str:
    """What the box of causal says below its meaning."""
    said = {"yes": "kept, by all registers together", "no": "not kept", "unknown": "unknown: it was given up"}
    return said.get(summary.get(CAUSAL, ""), "not told")


def how_many(levels: Levels, level: str) -> str:
    """How many registers kept a level."""
    if level == CAUSAL:
        return whether_causal(levels.summary)
    broken = sum(level not in kept(row) for row in levels.rows)
    if len(levels.rows) <= 1:
        return "not kept" if broken else "kept"
    if not broken:
        all_of_them = "both" if len(levels.rows) == 2 else f"all {len(levels.rows):,}"
        return f"kept by {all_of_them} registers"
    if broken == len(levels.rows):
        return "kept by no register"
    return f"not kept by {broken:,} of {len(levels.rows):,} registers"


def sign(x: float, y: float, held: Optional[bool]) -> str:
    """A tick in a disc, or a cross. Nothing if it isn't known."""
    if held is None:
        return ""
    if held:
        return shapes.tick(x, y)
    return tag("circle", class_="broken-disc", cx=x, cy=y, r=7) + tag(
        "path", class_="broken-mark", d=shapes.path("M", x - 3, y - 3, "l 6 6 m 0 -6 l -6 6"))


def name(level: str, x: float, y: float) -> str:
    """A level in words, and its name for --require if that is another one."""
    other = "" if WORDS[level] == level else tag("tspan", f" ({level})", class_="level-word")
    return tag("text", WORDS[level] + other, class_="level-name", x=x, y=y)


def is_kept(levels: Levels, level: str) -> Optional[bool]:
    """None if it isn't known, as may be of causal."""
    if level == CAUSAL and levels.summary.get(CAUSAL) not in ("yes", "no"):
        return None
    return level in kept(levels.summary)


def box(levels: Levels, level: str) -> str:
    held = is_kept(levels, level)
    left, top = corner(level)
    content = [tag("rect", x=left, y=top, width=BOX.width, height=BOX.height, rx=5),
               sign(left + 18, top + 16, held), name(level, left + 34, top + 20),
               text(left + 34, top + 36, MEANINGS[level], "level-meaning"),
               text(left + 34, top + 51, how_many(levels, level), "level-note")]
    state = {True: "kept", False: "lacking", None: "unknown"}[held]
    return tag("g", "".join(content), class_=f"level {state}")


def step(stronger: str, weaker: str) -> str:
    """An arrow from the right of one box to the left of another."""
    (left, top), (right, bottom) = corner(stronger), corner(weaker)
    begin, middle = left + BOX.width, (left + BOX.width + right) / 2
    line = shapes.path("M", begin, top + BOX.height / 2, "H", middle, "V", bottom + BOX.height / 2, "H",
                       right - 7)
    head = shapes.path("M", right - 8, bottom + BOX.height / 2 - 4.5, "v 9 l 8 -4.5 z")
    return tag("path", class_="implies", d=line) + tag("path", class_="implies-head", d=head)


def ladder(levels: Levels) -> str:
    """The picture of the whole history."""
    held, broken = kept(levels.summary), lacking(levels.summary)
    parts = [step(*pair) for pair in STEPS]
    parts += [box(levels, level) for level in REQUIRED]
    said = [f"kept: {in_words(held)}"] * bool(held) + [f"not kept: {in_words(broken)}"] * bool(broken)
    label = f"The levels that {counted(len(levels.rows), 'register')} kept; {'; '.join(said)}"
    return figure([tag("g", svg.title(label) + "".join(parts))], WHOLE, label, CAPTION)
