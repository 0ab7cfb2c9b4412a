"""What came out of checking a history, and how it is told to people and to machines.

- `settings.py`, `pages.py`: what is asked of a check, and where it draws.
- `judge.py`: from the name of a file to its outcome.
- `reads.py`, `trust.py`, `failures.py`: the reads that are counted, what is taken from the checker's answer,
  and what there is to say without a verdict.
- `outcome.py`: the outcome in words, and as JSON.
- `annotations.py`, `junit.py`: the same for GitHub, and for other CI systems.
- `runs.py`: the outcomes of a folder as a page."""
