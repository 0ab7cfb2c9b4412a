"""regkit: recorded histories of read/write registers, and what `regcheck` says of them, for people.

Its packages are floors, the lowest first. A module imports from its own floor and from those below.

    base        limits, exit statuses, the guard of the garbage collector
    words       how things are said to a person
    history     a recorded history, and how it is read
    recording   a history in the making
    convert     histories of other tools
    checker     the checkers, and what they answer
    verify      each claim of a report, checked by the definitions alone
    evidence    what a yes rests on
    explain     why: a no in sentences, and what to do about a refusal
    drawing     a history as a page
    judging     what came out of checking a history, and how it is told
    levels      which guarantees a history kept, and how old its reads were
    pictures    the same as a page
    parts       a history of any size in parts
    merge       one history of what several recorders wrote
    commands    the commands, a module each

Above them are the modules that a test imports: `record`, `testing`, `pytest_plugin` and `library`. `cli` is
the command line.
"""

__version__ = "1.2.0"
