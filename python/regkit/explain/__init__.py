"""Why: a no in sentences, and what to do about a refusal.

Of `regcheck`: `sentences.py` has the faults, `unexplained.py` the first read that no order explains,
`surroundings.py` and `causes.py` what was around it, and `explanation.py` puts it together. Of `regsearch`:
`searched.py`, `shrinking.py`, `reaching.py` and `search_explanation.py`, in the same order. `page.py` holds
the text of both, `timeline.py` draws their calls, `excerpt.py` reads no more of a history than a fault names,
and `advice.py` and `looks.py` are about refusals."""
