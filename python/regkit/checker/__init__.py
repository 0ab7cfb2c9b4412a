"""The checkers, and what they answer.

- `programs.py`: asks `regcheck`, `regsearch` or `reglevel`, or for a small history the library.
- `library.py`: the three as a library in this process.
- `bounds.py`: the bounds of a search.
- `report.py`, `levels.py`, `refusals.py`: what they write."""
