"""Which guarantees a history kept, and how old its reads were: what `reglevel` reports, in words.

- `subject.py`: a history with its report.
- `ages.py`: how old the values of reads were, in events and by the clock.
- `counts.py`: the old reads and the missed writes, with the first of each.
- `shares.py`: whose reads were stale, by client and by node.
- `faults.py`: why a level wasn't kept, where no single read shows it.
- `causal.py`: why the history isn't causal, as a story.
- `guesses.py`: what kind of store such a run is of.
- `account.py`: all of this together."""
