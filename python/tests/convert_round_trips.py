"""Every kind of the generator to each form and back: `nice python3 -m tests.convert_round_trips [EVENTS]`.

Run it by hand, in python/. It prints a line for each kind and form, and ends with status 1 if one differs.
With 20,000 events, the default, it takes a minute.
"""
import sys

from regkit.checker.programs import run_checker
from tests.convert_support import generated
from tests.test_convert_rule import KINDS, forms_of, there_and_back


def main() -> int:
    events = int(sys.argv[1]) if len(sys.argv) > 1 else 20_000
    differing = 0
    for kind in KINDS:
        history = generated(kind, events, 1)
        report = run_checker(history.encode()).report
        for form in forms_of(kind):
            back = there_and_back(history, form)
            same = back == history or run_checker(back.encode()).report == report
            differing += not same
            print(kind, form, "same history" if back == history else "same report" if same else "DIFFERS")
    return 1 if differing else 0


if __name__ == "__main__":
    sys.exit(main())
