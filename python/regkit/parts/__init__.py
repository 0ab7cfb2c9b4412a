"""A history of any size in parts that are checked apart.

- `blocks.py`, `reading.py`: its lines, many at a time, and what they say of where they belong.
- `routing.py`: in which part each line belongs, and which program the parts are for.
- `writing.py`, `splitting.py`: write the parts.
- `sizes.py`: what is too large for one run.
- `folder.py`: their files, and the manifest.
- `answers.py`: what the runs of the parts left.
- `joining.py`: the report of the whole."""
