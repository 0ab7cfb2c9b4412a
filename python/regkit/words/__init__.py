"""How things are said to a person: text that is safe to print, numbers, verdicts, colour and progress."""
