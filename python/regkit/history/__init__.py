"""A recorded history, and how it is read: from a file to its lines, and from these to its operations.

- `inputs.py`: the bytes of a file or of standard input.
- `lines.py`: the lines as JSON objects.
- `operations.py`: the calls of an accepted history, with what ended each.
- `who.py`: who made a call, and when.
- `texts.py`: what the numbers of a converted history stand for."""
