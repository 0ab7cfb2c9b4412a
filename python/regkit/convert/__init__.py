"""Histories that other tools recorded, made into histories for `regcheck` and `regsearch`, and back.

A reader (jepsen, porcupine, tables, events) gives the source's operations in the order in which they were
called and ended (model). Then each operation gets a process (processes), each register a name (names) and
each value a whole number (values), and the lines are written (output). `whole` puts this together, and
`words` reads the options.

Two rules hold throughout. A conversion never adds a precedence that the source doesn't have, and drops one
only at a tie of time stamps or by a clock error that the user states. And it passes over nothing that may
tell how an operation ended: what it doesn't understand it refuses by name (members, suspects).
"""
