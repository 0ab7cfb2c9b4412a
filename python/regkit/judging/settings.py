"""What is asked of a check: what a yes needs, how much is looked at, and how much is shown."""
from typing import NamedTuple, Optional, Sequence

from regkit.evidence.evidence import Evidence
from regkit.judging.pages import Pages


class CheckSettings(NamedTuple):
    """The same for each history of a run of `regkit check`."""

    most: int = 1  # faulty registers that are shown
    least_reads: int = 1  # completed reads that a yes needs
    least_overlaps: int = 0  # and how many of them have to overlap a write
    first: bool = False  # stop at the first faulty register
    verify: bool = False  # check each claim of the answer
    count_all: bool = False  # count the reads of the whole history, however long it is
    bounds: Sequence[str] = ()  # of a search: options of regsearch
    pages: Optional[Pages] = None  # where each history is drawn
    levels: bool = False  # ask reglevel what was kept where a history isn't linearizable

    def is_enough(self, found: Evidence) -> bool:
        """Whether a yes may rest on it."""
        return (found.completed_reads >= self.least_reads
                and found.overlapping_reads >= self.least_overlaps)
