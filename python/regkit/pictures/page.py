"""The page: what held in words, the ladder, how old stale reads were and when they came, and the faults."""
from typing import Sequence

from regkit.checker.levels import WEAKER, kept, lacking, strongest
from regkit.checker.report import Row
from regkit.drawing.legend import legend
from regkit.drawing.page import CROSS, STRIPES, TICK, document, listed, verdict_icon
from regkit.drawing.svg import tag
from regkit.drawing.text import name, with_code, words
from regkit.drawing.walk import known
from regkit.levels.account import account, below_title
from regkit.levels.ages import oldest_first, stale_reads
from regkit.levels.subject import Subject
from regkit.pictures.bursts import bursts_of
from regkit.pictures.causal import causal_sections
from regkit.pictures.faults import Section, section
from regkit.pictures.histogram import histogram
from regkit.pictures.ladder import BREACHES, MEANINGS, ladder
from regkit.pictures.registers import table, worst_first
from regkit.pictures.timeline import timeline
from regkit.words.levels import in_words
from regkit.words.phrases import capital, counted

MOST = 5  # registers whose faults are drawn
BURSTS = "A burst suggests a failover or a cut link; an even spread, a replica or cache that lags."


def title_of(subject: Subject) -> str:
    """The strongest levels that all registers kept."""
    held = strongest(kept(subject.levels.summary))
    if "atomic" in held:
        return "Linearizable"
    return f"Keeps {in_words(held)}" if held else "Keeps no level"


def top(subject: Subject, title: str) -> str:
    """With a mark if all levels held, or none."""
    held, shown = kept(subject.levels.summary), f"{words(title_of(subject))}: {name(title)}"
    if held and "atomic" not in held:
        return tag("h1", shown)
    kind, mark = ("yes", TICK) if held else ("no", CROSS)
    return tag("h1", verdict_icon(mark) + shown, class_=f"verdict {kind}")


def meaning(subject: Subject) -> str:
    """What the run kept and what it broke, for readers who don't know the names of the levels. A level that
    is broken since a weaker one is isn't named."""
    held, broken = kept(subject.levels.summary), set(lacking(subject.levels.summary))
    good = [MEANINGS[level] for level in strongest(held)]
    bad = [breach for level, breach in BREACHES.items()
           if level in broken and not broken & {*WEAKER.get(level, ())}]
    said = [f"Kept: {'; '.join(good)}."] * bool(good) + [f"Broken: {'; '.join(bad)}."] * bool(bad)
    return " ".join(said)


def told(subject: Subject, more: Sequence[str]) -> str:
    """What `regkit levels` says, but for what the title has. A line that is indented says more of the one
    before it."""
    summary = subject.levels.summary
    first = below_title(summary)
    items = [tag("p", words(f"{capital(first)}."), class_="sub"), tag("p", words(meaning(subject)))]
    for line in [*account(subject), *(f"  {each}" for each in more)]:
        said = with_code(capital(line.strip()) + ".")
        items.append(tag("p", said, class_="more" if line.startswith("   ") else ""))
    return tag("div", "".join(items), class_="told")


def staleness(subject: Subject) -> str:
    """How old stale reads were, and when they came. Empty if there are none."""
    found = stale_reads(subject)
    if not found:
        return ""
    when = timeline(bursts_of(subject, [each.read for each in found]))
    return (tag("h2", "How old stale reads were") + histogram(oldest_first(found))
            + tag("h2", "When reads were stale") + tag("p", words(BURSTS), class_="sub") + when)


def broken_rows(subject: Subject) -> list[Row]:
    """The registers that broke a level, the worst first."""
    return sorted((row for row in subject.levels.rows if "atomic" not in kept(row)), key=worst_first)


def faults(subject: Subject, sections: list[Section], rest: list[str]) -> str:
    """The faults of some registers, and the names of the others that broke a level."""
    key = legend((scene for each in sections for scene in each.author.scenes), bool(subject.history.crashes))
    text = "".join(tag("section", each.heading + (key if number == 0 else "") + each.pictures)
                   for number, each in enumerate(sections))
    if not rest:
        return text
    verb = "isn't" if len(rest) == 1 else "aren't"
    said = f"The faults of {counted(len(rest), 'more register')} {verb} drawn: {listed(rest)}."
    return text + tag("p", said, class_="note")


def levels_page(subject: Subject, title: str, more: Sequence[str] = ()) -> str:
    """The page of a history by the name of its file. `more` is what there is to say of that file."""
    broken = broken_rows(subject)
    sections = [*causal_sections(subject), *(section(subject, row) for row in broken[:MOST])]
    rest = [row["register"] for row in broken[MOST:]]
    body = [STRIPES, top(subject, title), told(subject, more), tag("h2", "The levels"),
            ladder(subject.levels), staleness(subject), table(subject), faults(subject, sections, rest)]
    drawn = known((scene for each in sections for scene in each.author.scenes),
                  (each.order for each in sections))
    return document(f"{title_of(subject)}: {title}", "\n".join(filter(None, body)), drawn)
