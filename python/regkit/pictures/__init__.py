"""The levels of a history as a page: what held, how old stale reads were and when they came, and each fault.

- `canvas.py`: a picture with its caption.
- `ticks.py`: round numbers along an axis, and how they are shown.
- `ladder.py`: the levels above one another, with what held.
- `registers.py`: the same of each register that broke one, in a table.
- `histogram.py`: how old stale reads were.
- `bursts.py`: how many reads were stale in each part of the run, by node or client.
- `timeline.py`: the picture of these.
- `reasons.py`: why a register didn't keep a level.
- `faults.py`: the pictures of these reasons.
- `causal.py`: the picture of why the history isn't causal.
- `page.py`: all of this together."""
