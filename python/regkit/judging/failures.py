"""What went wrong where there is no verdict, in words, and what to do about it."""
from regkit.checker.programs import Answer, with_search_hint
from regkit.words.quoting import plain


def file_failure(name: str, error: OSError) -> str:
    """What failed, with its name if that isn't the history's own."""
    other = "" if error.filename in (None, name) else f"{error.filename}: "
    return other + (error.strerror or str(error))


def program_failure(answer: Answer) -> str:
    """How a program ended that gave no answer."""
    if answer.status < 0:
        return f"{answer.program} was ended by signal {-answer.status}: was there too little memory?"
    return f"{answer.program} ended with status {answer.status}: {plain(answer.refusal)}"


def advice(history: bytes, refusal: str, name: str) -> str:
    """What to do about a refusal."""
    from regkit.explain import advice as adviser  # only a refusal waits for this

    return adviser.advice(history, refusal, name)


def refusal_advice(history: bytes, answer: Answer, name: str) -> str:
    """The same of an answer; where regsearch would take the history and isn't there, that too."""
    return with_search_hint(advice(history, answer.refusal, name), history, answer)
