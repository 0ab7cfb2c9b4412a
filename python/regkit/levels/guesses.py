"""What kind of store a run is of, by the levels that it kept and how its old reads are mixed.

These are guesses. The table is what simulated stores of each kind did, and others may do the same."""
from typing import Callable, NamedTuple, Sequence

from regkit.checker.levels import CAUSAL, kept
from regkit.checker.report import Row

FEWEST = 20  # old reads that a guess needs


class Mix(NamedTuple):
    """The levels that a run kept, and how many of its reads were old."""

    kept: Sequence[str]
    stale: int
    inverted: int
    causal: str  # yes, no or unknown; empty if nothing is said of it

    def is_only(self, *levels: str) -> bool:
        """Whether exactly these of the guarantees of a session were kept."""
        return {*self.kept} & {"session", "own_writes", "monotonic"} == {*levels}

    @property
    def comes_back(self) -> bool:
        """Whether most old reads gave a value that came back, and few one that was overwritten long ago."""
        return self.stale * 2 < self.inverted


class Guess(NamedTuple):
    """A kind of store, and what its runs look like."""

    store: str
    fits: Callable[[Mix], bool]


TABLE = [  # the first that fits
    Guess("replicas that are written synchronously, and read before the write has ended",
          lambda mix: "regular" in mix.kept and mix.inverted > 0),
    Guess("replicas that are behind, each key or shard by itself, where each session sees its own writes and "
          "never goes back", lambda mix: "session" in mix.kept and mix.causal == "no"),
    Guess("replicas that are behind, where each session sees its own writes and never goes back; or, if the "
          "stale reads came in one burst, a failover or a restart that lost writes",
          lambda mix: "session" in mix.kept),
    Guess("several leaders with causal delivery, or an order of the writes by clocks, that all sessions see",
          lambda mix: CAUSAL in mix.kept),
    Guess("several leaders without causal delivery, each of which some sessions keep to",
          lambda mix: list(mix.kept) == ["sequential"]),
    Guess("quorums without write-back", lambda mix: mix.comes_back and not mix.is_only("monotonic")),
    Guess("replicas that any session reads, with a token of the session's own writes",
          lambda mix: mix.is_only("own_writes")),
    Guess("sessions that keep to one replica each, and don't wait there for their own writes",
          lambda mix: mix.is_only("monotonic") and mix.inverted > 0),
    Guess("one cache that is filled with old values, or one copy that ignores some writes",
          lambda mix: mix.is_only("monotonic")),
    Guess("a cache in front, which is filled with old values", lambda mix: mix.inverted * 7 < mix.stale),
    Guess("replicas or caches of which any one is read, or a failover", lambda mix: True),
]


def guess(summary: Row) -> str:
    """The kind of store, marked as a guess. Empty if too little was seen for one."""
    if summary["atomic"] == "yes" or "unclean" in summary or summary["stale"] + summary["inverted"] < FEWEST:
        return ""
    mix = Mix(kept(summary), summary["stale"], summary["inverted"], summary.get(CAUSAL, ""))
    store = next(known.store for known in TABLE if known.fits(mix))
    return f"a guess: this looks like {store}"
