"""Appends to texts and to lists, as the cas that they are once the whole history is known.

    append "b", where a read gives "abc" and "a" was put     cas from "a" to "ab"
    append "d", which no read gives                          a write of #appended "d", which nobody asks for

Each element is appended to a key once, and a read's value can be made in one way: of a base, which was put or
is the empty one, and of elements. So what a read gives says which value each element in it was appended to.
An append without a reply whose element no read gives may be left out: it lasts only to the next put, and
until then nobody looked. Puts, reads and appends are taken, and nothing else that tells or asks for a value,
since a value that is only asked for need never have been there.
"""
import hashlib
import re
import shlex
from collections import Counter
from typing import Any, Callable, Iterable, Iterator, Optional

from regkit.convert import edn
from regkit.convert.json_values import as_edn
from regkit.convert.made import Trunk, Trunks, Whole
from regkit.convert.model import APPEND, CAS, WRITES, Choices, Refused, Source, SourceOperation, Value
from regkit.convert.spellings import bare, parsed, spelled
from regkit.convert.suspects import spells_null
from regkit.convert.values import ALL_TEXTS, initial_value, settled, shown, unsettled
from regkit.words.phrases import counted

_LONGEST_TEXT, _LONGEST_LIST = 400, 60  # that is a value itself; of a longer one the ends and a digest are
_END_OF_TEXT, _END_OF_LIST = 30, 3  # of a longer one, how much of each end is shown
_UNREAD = "appended"  # the tag of what was appended, in place of a value that no read gives
_SEPARATORS = re.compile(r"[\s,;|\"'\[\]()]+")
_SKIP = "or leave out such keys with --ops append=other --skip-key"


def raw(value: Any, nulls: frozenset[str]) -> Any:
    """A value as it is appended, put or read, with vectors for lists; None if it stands for none."""
    value = as_edn(value)
    if type(value) is edn.Tagged:
        value = value.value
    return None if value is None or spelled(value) in nulls else value


def keys_of(operations: Iterable[SourceOperation], read_value: Callable[[Any], Value]) -> set[str]:
    """The keys to which something is appended; and where there is one, those to which nothing is put."""
    held = list(operations)
    keys = {each.key for each in held if each.kind == APPEND}
    return keys and keys | {each.key for each in held if each.kind in WRITES
                            and read_value(each.value) is None}


def fold(source: Source, operations: Iterable[SourceOperation], choices: Choices) -> None:
    """Makes reads, writes and cas of the operations of each key to which something is appended."""
    by_key: dict[str, list[SourceOperation]] = {key: [] for key in sorted(source.lists)}
    for operation in operations:
        if operation.key in by_key:
            by_key[operation.key].append(operation)
    left_out: set[SourceOperation] = set()
    shown_by_reads = unread = 0
    for key, mine in by_key.items():
        register = _Register(key, mine, choices)
        left_out |= register.fold()
        unread += sum(each.kind == "write" for each in register.appends)
        shown_by_reads += sum(each.kind == CAS for each in register.appends)
        if register.start is not None:
            source.starts[key] = register.start
    if shown_by_reads:
        source.notes.append(f"took {counted(shown_by_reads, 'append')} for cas: reads tell from which value "
                            "to which")
    if unread > len(left_out):
        source.notes.append(f"took {counted(unread - len(left_out), 'append')} that no read shows for writes "
                            f"of a value of their own, which is shown as #{_UNREAD}")
    if left_out:
        source.leave_out(left_out)
        source.notes.append(f"left out {counted(len(left_out), 'append')} of unknown outcome that no read "
                            "shows: nobody can tell whether they took place")


def _bare(text: Whole) -> Whole:
    """A text without what a recorder may have added or taken away."""
    return _SEPARATORS.sub("", text) if isinstance(text, str) else text


class _Register:
    """The operations of one key, as they are made reads, writes and cas."""

    def __init__(self, key: str, operations: list[SourceOperation], choices: Choices) -> None:
        self.key = key
        self.choices = choices
        self.start: Optional[Value] = None  # that the key has to be given, if that isn't null
        self.line = operations[0].line
        self.appends = [each for each in operations if each.kind == APPEND]
        self.puts = [each for each in operations if each.kind == "write"]
        self.gets = [each for each in operations if each.kind == "read" and each.ending == "reply"]
        self.numbers: dict[Value, int] = {}  # of the elements of lists, each with its place in the next one
        self.elements: list[Value] = []
        self._known: dict[tuple[type, Any], int] = {}  # likewise, of elements as the source has them
        self._refuse_others(operations)
        self.is_text = self._holds_texts()
        self.nothing: Value = None
        if any(put.value is None for put in self.puts):  # a register has null only at its start
            self.nothing = '""' if self.is_text else "[]"
            self.start = self.nothing
        self.initial = self._initial()

    def fold(self) -> set[SourceOperation]:
        """Returns the appends that are left out."""
        appended = self._appended()
        values = {each: self._whole(each) for each in (*self.gets, *self.puts)}
        bases = {values[each] for each in self.puts} | {self.initial}
        trunks = Trunks({*values.values(), *bases}, bases, set(appended))
        steps = self._steps(trunks, values, set(appended))
        names = {trunk: self._names(trunk) for trunk in trunks.all}
        for each, whole in values.items():
            each.value = names[trunks.of(whole)][len(whole)]
        left_out = set()
        for element, operations in appended.items():
            for each in operations:
                if element in steps:
                    trunk, before, end = steps[element]
                    each.kind, each.expected, each.value = "cas", names[trunk][before], names[trunk][end]
                else:
                    each.kind, each.value = "write", edn.write(edn.Tagged(_UNREAD, each.value))
                    left_out |= {each} if each.ending in (None, "crash") else set()
        return left_out

    # ---- what the source has

    def _refuse_others(self, operations: Iterable[SourceOperation]) -> None:
        mine = {*self.appends, *self.puts}
        other = next((each for each in operations
                      if each not in mine and (each.kind != "read" or each.found is not None)), None)
        if other is not None:
            raise Refused(f"{shown(self.key)} is appended to or emptied, and this is a {other.kind}: beside "
                          "appends only gets and puts of the whole value are taken, since no other "
                          f"operation tells the value that an append met, {_SKIP}", other.line)
        if self.choices.values == "alike":
            raise Refused("by --values alike values that are spelled alike are one, and an append makes "
                          f"values of values: leave the option out, {_SKIP}", self.line)

    def _holds_texts(self) -> bool:
        """Whether the values are texts, and not lists. Raises Refused if they are neither or both."""
        held = [each for each in (*self.gets, *self.puts) if each.value is not None]
        if self.choices.form == "csv":
            lists = [parsed(each.value) for each in held]
            if lists and all(type(each) is tuple for each in lists) and not any(
                    spelled(each.value).lstrip().startswith("[") for each in self.appends):
                for each, value in zip(held, lists):
                    each.value = value
        kinds = {type(each.value) for each in held}
        if not kinds:
            return all(type(each.value) is str for each in self.appends)
        if kinds <= {str} or kinds <= {tuple}:
            return kinds == {str}
        strange = next((each for each in held if type(each.value) not in (str, tuple)), held[-1])
        raise Refused(f"{shown(self.key)} is appended to, and the value {edn.write(strange.value)[:60]} is "
                      "no text, or no list, as others are: record what a get gives and what a put writes as "
                      f"the whole text or the whole list, {_SKIP}", strange.end_line or strange.line)

    def _initial(self) -> Whole:
        """The value with which the key starts."""
        start = None if self.choices.initial is None else initial_value(
            self.choices.initial, self.choices.form)
        if start is None:
            return self._empty()
        if not self.is_text:
            raise Refused(f"{shown(self.key)} has lists, and --initial {self.choices.initial} is none: begin "
                          "the source with a put of the list with which the key starts", self.line)
        return str(unsettled(start))

    def _empty(self) -> Whole:
        return "" if self.is_text else ()

    def _appended(self) -> dict[Whole, list[SourceOperation]]:
        """Each element with its appends, of which at most one may have taken place."""
        found: dict[Whole, list[SourceOperation]] = {}
        for each in self.appends:
            operations = found.setdefault(self._element(each), [])
            other = next((other for other in operations if other.ending != "fail"), None)
            if other is not None and each.ending != "fail":
                raise Refused(f"{spelled(each.value)[:40]} is appended to {shown(self.key)} again, and "
                              f"before that at line {other.line}: reads don't tell which append came where. "
                              "Let each append have a text or a number of its own, such as one with the "
                              f"client and a counter in it, {_SKIP}", each.line)
            operations.append(each)
        return found

    def _element(self, append: SourceOperation) -> Whole:
        value = append.value
        if value is None or value in ("", ()):
            raise Refused("an append of nothing changes nothing: leave it out of the workload; "
                          f"{_SKIP}", append.line)
        if not self.is_text:
            return (self._number(value),)
        if type(value) is not str:
            raise Refused(f"{edn.write(value)[:40]} is appended to {shown(self.key)}, and gets give texts: "
                          f"record the text that is appended, {_SKIP}", append.line)
        return value

    def _number(self, element: Any) -> int:
        """The number of an element of a list."""
        is_plain = type(element) in (int, str)
        known = self._known.get((type(element), element)) if is_plain else None
        if known is not None:
            return known
        value = settled(element, self.choices.nulls, self.choices.form in ALL_TEXTS)
        number = self.numbers.setdefault(value, len(self.numbers))
        if number == len(self.elements):
            self.elements.append(value)
        if is_plain:
            self._known[type(element), element] = number
        return number

    def _whole(self, operation: SourceOperation) -> Whole:
        """What a get gave or a put writes."""
        value = operation.value
        if value is None:
            return self._empty()
        if not value:
            raise Refused(f"the {'text' if self.is_text else 'list'} is empty: say "
                          f"{shlex.quote('--null=' + spelled(value))} if that is the same as no value, {_SKIP}",
                          operation.end_line or operation.line)
        return value if self.is_text else tuple(map(self._number, value))

    # ---- what the gets tell

    def _steps(self, trunks: Trunks, values: dict[SourceOperation, Whole],
               elements: set[Whole]) -> dict[Whole, tuple[Trunk, int, int]]:
        """By element that some get gave, between which values it was appended.

        If gets contradict each other, any of them will do, and what most of them say explains the fault best.
        """
        steps: dict[Whole, tuple[Trunk, int, int]] = {}
        agree = Counter(trunks.of(values[get]) for get in self.gets)
        for get in sorted(self.gets, key=lambda get: -agree[trunks.of(values[get])]):
            whole = values[get]
            trunk = trunks.of(whole)
            ways = trunk.ways[len(whole)]
            if ways > 1:
                raise Refused(f"{spelled(get.value)[:60]} can be made of what is put and appended to "
                              f"{shown(self.key)} in more than one way, so it doesn't tell which: let each "
                              "append have a text that begins no other one, such as one that ends by a sign "
                              f"of its own, and that nobody puts, {_SKIP}", get.end_line or get.line)
            if not ways:
                if get.value is not None:
                    self._refuse_suspect(get, whole, elements)
                continue
            for before, end in reversed(list(trunk.walk(len(whole)))):  # an element's first place
                steps.setdefault(whole[before:end], (trunk, before, end))
        return steps

    def _refuse_suspect(self, get: SourceOperation, whole: Whole, elements: set[Whole]) -> None:
        """A value that nobody made is a fault of the store, unless it was recorded otherwise than made."""
        why = spells_null(get.value, self.choices)
        if why is None and self.choices.values != "exact":
            why = self._other_spelling(whole, elements)
        if why is not None:
            raise Refused(f"a get gave {spelled(get.value)[:60]}, which isn't made of what is put and "
                          f"appended to {shown(self.key)}: {why}", get.end_line or get.line)

    def _other_spelling(self, whole: Whole, elements: set[Whole]) -> Optional[str]:
        if isinstance(whole, str):
            parts = {_bare(each) for each in elements} - {""}
            bases = {_bare(self._whole(each)) for each in self.puts} | {_bare(self.initial)}
            if not Trunk(_bare(whole), bases, parts).ways[-1]:
                return None
            return ("but for blanks, quotes and separators it is; record each text as the store has it, or a "
                    "list as a list, or say --values exact if the store was wrong to give it")
        appended = {bare(unsettled(self.elements[number])) for each in elements for number in each
                    if isinstance(number, int)}
        odd = next((self.elements[number] for number in whole if (number,) not in elements
                    and bare(unsettled(self.elements[number])) in appended), None)
        return None if odd is None else (
            f"{odd} is spelled like an element of another kind; record what a get gives as what is "
            "appended, or say --values exact if the store was wrong to give it")

    # ---- names

    def _names(self, trunk: Trunk) -> dict[int, Value]:
        """By position of a trunk, the value of what ends there, for all that is used."""
        digest, last = hashlib.sha256(), 0
        names: dict[int, Value] = {}
        for end in sorted(trunk.ends | trunk.walked | {0}):
            digest.update("".join(self._spelled(trunk.whole[last:end])).encode("utf-8", "surrogatepass"))
            names[end], last = self._name(trunk.whole, end, digest), end
        return names

    def _name(self, whole: Whole, end: int, digest: "hashlib._Hash") -> Value:
        if not end:
            return self.nothing
        if end == len(self.initial) and whole[:end] == self.initial:
            return initial_value(self.choices.initial or "", self.choices.form)
        if end <= (_LONGEST_TEXT if self.is_text else _LONGEST_LIST):
            parts = "".join(self._spelled(whole[:end])).strip()
            return settled(parts, frozenset(), True) if self.is_text else f"[{parts}]"
        length, unit = (_END_OF_TEXT, "characters") if self.is_text else (_END_OF_LIST, "elements")
        ends = ["".join(self._spelled(part)) for part in (whole[:length], whole[end - length:end])]
        return edn.quote(f"{' .. '.join(ends)} ({end:,} {unit}, SHA-256 {digest.hexdigest()[:32]})")

    def _spelled(self, whole: Whole) -> Iterator[str]:
        """A text, or each element of a list with a space behind it."""
        if isinstance(whole, str):
            yield whole
            return
        for number in whole:
            value = self.elements[number]
            yield f"{'nil' if value is None else value} "
