"""EDN, the notation in which Clojure's tools write histories: a reader and a writer.

- `kinds.py`: the values, and the one text of each.
- `tokens.py`, `atoms.py`: lines as tokens, and what a token by itself stands for.
- `reading.py`: lines as values, one by one.
"""
from regkit.convert.edn.kinds import Keyword, Map, NotEdn, Set, Symbol, Tagged, Value, quote, write
from regkit.convert.edn.reading import values

__all__ = ["Keyword", "Map", "NotEdn", "Set", "Symbol", "Tagged", "Value", "quote", "values", "write"]
