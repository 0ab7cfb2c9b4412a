"""What one run of regcheck or regsearch takes; docs/format.md has the same numbers."""

MAX_BYTES = 67_108_864  # of a history
MAX_EVENTS = 1_048_576
MAX_LINE = 65_536  # bytes
MAX_DEPTH = 127  # of lists and objects in one line
MAX_NAME = 255  # bytes of a register's name
MAX_PROCESS = 4_294_967_295
LEAST_VALUE, GREATEST_VALUE = -(2**63), 2**63 - 1
MAX_STEPS = 1_000_000_000_000  # the most that the bounds of a search may be
MAX_CONFIGURATIONS = 1_048_576
DEFAULT_STEPS = 1_000_000_000  # what they are unless others are asked for
DEFAULT_CONFIGURATIONS = 65_536
