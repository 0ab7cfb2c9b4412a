"""What the options of `regkit convert` say: its parser, and their words as Choices."""
import argparse
import re
from typing import Collection, Optional

from regkit.convert import stores, versions, write_back
from regkit.convert.advice import takes_away
from regkit.convert.columns import COLUMNS, columns
from regkit.convert.model import (ADD, APPEND, CAS, COUNT_DELETE, CREATE, DELETE, DELETE_IF, ENDINGS, EXISTS,
                                  FETCH_ADD, FETCH_DELETE, FETCH_SUBTRACT, LOCK, OTHER, READ_AND_WRITE,
                                  REPLACE, SUBTRACT, SWAP, UNLOCK, Choices, WrongWords, folded)
from regkit.convert.whole import READERS

AUTO = "auto"  # the form is what the source's beginning says
TIMED = ("porcupine", "csv", "operations")
_TABLES = ("csv", "operations")
NULLS = {"porcupine": "", "csv": ""}  # by form, what spells null if --null doesn't say
OPS = ("read", "write", CAS, CREATE, REPLACE, SWAP, DELETE, COUNT_DELETE, FETCH_DELETE, DELETE_IF, EXISTS,
       LOCK, UNLOCK, ADD, FETCH_ADD, SUBTRACT, FETCH_SUBTRACT, APPEND, OTHER)
DELIMITERS = {"comma": ",", "semicolon": ";", "tab": "\t", "\\t": "\t", "pipe": "|", "bar": "|"}


def add_arguments(parser: argparse.ArgumentParser) -> None:
    add = parser.add_argument
    add("--from", dest="form", choices=[AUTO, *READERS], default=AUTO,
        help="the form of the source (default auto: by how it begins, and refused if it may have two)")
    add("file", metavar="FILE", nargs="?", help="the source, packed by gzip or not (default: standard input)")
    add("-o", "--output", metavar="OUT", help="the history (default: standard output)")
    add("--map", metavar="FILE", help="write here, as JSON, what each number, process and line stands for")
    _add_meanings(parser)
    _add_clocks(parser)
    add("--null", metavar="TEXT,..", help="the spellings of null, such as nil,,not-found (the second is the "
        "empty text, default for csv and porcupine); EDN's nil and JSON's null always are null")
    add("--initial", metavar="VALUE", help="each register starts with this value: a completed write of it "
        "comes before all else; null says that each starts with none")
    add("--values", choices=["auto", "exact", "alike"], default="auto",
        help='whether values that are spelled alike, as 1, "1" and :1 are, are one value (alike) or several '
        "(exact); auto, the default, refuses them if it matters")
    add("--cas", choices=["keep", "skip-key", "refuse"], default="keep",
        help="keep compare-and-swap for regsearch (default), leave out the keys that have any operation but "
        "reads and writes, or refuse it")
    add("--skip-key", action="store_true", help="leave out the keys that anything but a read, a write, an "
                                                "append or a cas of one key touches, such as mget x,y or "
                                                "what --ops calls other")
    add("--failed-cas", choices=["fail", "missed"], default="fail",
        help="what a failed cas says: nothing, since it had no effect (fail, the default), or that the store "
        "looked and found another value (missed)")
    _add_versions(parser)
    add("--keys", choices=["auto", "independent", "none"], default="auto",
        help="jepsen: whether a value is [key value] (default auto: if all calls' values are pairs)")
    add("--register", metavar="NAME",
        help="the register of the operations without a key (default x, if no operation has one)")
    add("--to", choices=["history", *write_back.WRITERS], default="history",
        help="the form of the output (default history, for regcheck)")


def _add_meanings(parser: argparse.ArgumentParser) -> None:
    """The options that say what the source's own words mean."""
    add = parser.add_argument
    add("--key", metavar="NAME", help="the member or column that is the key (default register, key or k)")
    add("--columns", metavar="COLUMN=NAME,..",
        help=f"csv, operations: the source's names for {', '.join(COLUMNS)}")
    add("--delimiter", metavar="C", help="csv: what stands between the fields: a character, or comma, "
        "semicolon or tab (default: whichever the header has)")
    add("--ops", metavar="WORD=OP,..", action="append", default=[],
        help="what the source's words for operations mean: read, write, cas; create (a put-if-absent), "
        "replace (a put where there is a value), swap (a get-and-set), append; delete (answered nothing), "
        "count-delete (1 or 0), fetch-delete (the old value), delete-if (this value alone), exists; lock and "
        "unlock; add and subtract (answered the new value), fetch-add and fetch-subtract (the old one); or "
        "other, whose keys --skip-key leaves out")
    add("--store", choices=sorted(stores.OPS), help="csv, operations: the source's words for operations, and "
        "for what they are answered, are those of this store; --ops may say of some what else they mean")
    add("--outcomes", metavar="WORD=OUTCOME,..", action="append", default=[],
        help="what the source's words for outcomes mean: ok, fail (it certainly had no effect), unknown, or "
             "of a cas missed (the store found another value)")
    add("--ok-when", metavar="MEMBER=WORD,..", action="append", default=[],
        help="an operation took place only if this member or column has one of these words; any other is an "
        "unknown outcome unless --outcomes has it; the empty word is null too, and no such member")
    add("--ignore-member", metavar="NAME", action="append", default=[],
        help="this member or column means nothing; may be given again")


def _add_clocks(parser: argparse.ArgumentParser) -> None:
    """The options that say what the source's times mean."""
    add = parser.add_argument
    add("--clock-error", metavar="TIME", help="porcupine, csv, operations: how far a clock may be from the "
        "true time, such as 5ms; calls become earlier and replies later by it")
    add("--clock-unit", choices=["ns", "us", "ms", "s"], help="what a number of the source's clock means")
    add("--duration-unit", choices=["clock", "ns", "us", "ms", "s"], help="csv, operations: what a number in "
        "the column of the durations means (clock: it is of the unit of the times), unless its name or the "
        "number says it, as in latency_ms and 5ms")


def _add_versions(parser: argparse.ArgumentParser) -> None:
    """The options that say where the versions of keys are."""
    add = parser.add_argument
    add("--versions", metavar="MEMBER", help="porcupine as JSON, csv, operations: a put takes place only if "
        "its key has the version in this member, and then the key has the next one; a get is answered the "
        "version there. Values and versions are checked at once, versions alone with --ignore-member Value")
    add("--revisions", metavar="MEMBER", help="the same for versions that may skip numbers, if each put "
        "gives a greater one, as etcd's revisions and memcached's cas tokens")
    add("--new-revisions", metavar="MEMBER", help="csv, operations, with --revisions: the member in which a "
        "put is answered the version that it gave. Then a put may ask for no version, and a delete for one "
        "(delete-if) or for none")
    add("--drop-versions", action="store_true", help="jepsen: each value is [version value], as in Jepsen's "
        "test of etcd; only the values are checked")


def plain_choices(form: str) -> Choices:
    """What no options say of a source."""
    parser = argparse.ArgumentParser()
    add_arguments(parser)
    return choices_of(parser.parse_args([]), form)


def choices_of(arguments: argparse.Namespace, form: str) -> Choices:
    """What the options say of a source in a form. Raises WrongWords if they don't fit it."""
    for option, value, forms in (("--columns", arguments.columns, ("csv", "operations")),
                                 ("--delimiter", arguments.delimiter, ("csv",)),
                                 ("--duration-unit", arguments.duration_unit, ("csv", "operations")),
                                 ("--store", arguments.store, ("csv", "operations")),
                                 ("--drop-versions", arguments.drop_versions or None, ("jepsen",)),
                                 ("--clock-error", arguments.clock_error, TIMED),
                                 ("--clock-unit", arguments.clock_unit, TIMED)):
        if value is not None and form not in forms:
            raise WrongWords(f"{option} is for {', '.join(forms)}, not for {form}")
    _look_at_versions(arguments, form)
    if arguments.map and arguments.to != "history":
        raise WrongWords("--map describes a history for regcheck: leave out --to, or --map")
    return Choices(
        form=form, register=arguments.register, keys=arguments.keys, nulls=_nulls(form, arguments),
        initial=arguments.initial, values=arguments.values, key=arguments.key and folded(arguments.key),
        cas=arguments.cas, skip_key=arguments.skip_key, failed_cas=arguments.failed_cas,
        versions=_version_member(arguments), revisions=arguments.revisions is not None,
        new_revisions=arguments.new_revisions and folded(arguments.new_revisions),
        drop_versions=arguments.drop_versions, columns=_columns(arguments),
        delimiter=_delimiter(arguments.delimiter),
        ops={**stores.OPS.get(arguments.store, {}), **_meanings("--ops", arguments.ops, OPS)},
        answers=stores.ANSWERS.get(arguments.store, {}),
        outcomes=_meanings("--outcomes", arguments.outcomes, ENDINGS), ok_when=_ok_when(arguments.ok_when),
        ignored=frozenset(map(folded, arguments.ignore_member)), clock_error=arguments.clock_error,
        clock_unit=arguments.clock_unit, duration_unit=arguments.duration_unit)


def _version_member(arguments: argparse.Namespace) -> Optional[str]:
    named = arguments.revisions if arguments.versions is None else arguments.versions
    return None if named is None else folded(named)


def _look_at_versions(arguments: argparse.Namespace, form: str) -> None:
    if arguments.new_revisions is not None and (arguments.revisions is None or form not in _TABLES):
        raise WrongWords(f"--new-revisions is for {', '.join(_TABLES)} with --revisions")
    if _version_member(arguments) is None:
        return
    if form not in TIMED:
        raise WrongWords(versions.not_of(form))
    if None not in (arguments.versions, arguments.revisions):
        raise WrongWords("--versions and --revisions: say one of them, whether versions go up by 1 or not")
    if arguments.initial not in (None, "null", "nil"):
        raise WrongWords(f"--initial {arguments.initial}: by --versions and --revisions a key starts without "
                         "a value, as version 0")


def _columns(arguments: argparse.Namespace) -> dict[str, str]:
    """The columns, with the key by --key."""
    found = columns(arguments.columns)
    if arguments.key is not None:
        if found["register"] not in ("register", arguments.key):
            raise WrongWords(f"--key {arguments.key}: by --columns the key is {found['register']}")
        found["register"] = arguments.key
    return found


def _nulls(form: str, arguments: argparse.Namespace) -> frozenset[str]:
    """The spellings of null; two double quotes are the empty text too, since a shell may keep them."""
    if arguments.null is None:
        own = [NULLS.get(form), stores.NULLS.get(arguments.store)]
        return frozenset(word for word in own if word is not None)
    return frozenset("" if word == '""' else word for word in arguments.null.split(","))


def _delimiter(word: Optional[str]) -> Optional[str]:
    found = DELIMITERS.get(word, word) if word is not None else None
    if found is not None and (len(found) != 1 or found in '"\r\n'):
        raise WrongWords(f"--delimiter {word}: one character is expected, or comma, semicolon or tab")
    return found


def _meanings(option: str, given: list[str], known: Collection[str]) -> dict[str, str]:
    """What words of the source mean, each one of those known. A word may have commas and equals signs."""
    one = rf"(.*?)=({'|'.join(known)})(?:,|$)"
    meanings: dict[str, str] = {}
    for words in given:
        if not re.fullmatch(rf"(?:{one})+", words, re.DOTALL):
            raise WrongWords(f"{option} {words}: WORD=MEANING,.. is expected, with one of {', '.join(known)} "
                             "for each MEANING")
        for said, meaning in re.findall(one, words, re.DOTALL):
            if folded(said) in READ_AND_WRITE and meaning in OPS and meaning not in (folded(said), OTHER):
                raise WrongWords(f"{option} {said}={meaning}: {said} reads and writes at once, so it is "
                                 f"{'cas or other' if folded(said) == CAS else OTHER}")
            if meaning in (ADD, FETCH_ADD) and takes_away(said):
                raise WrongWords(f"{option} {said}={meaning}: {said} takes away, and {meaning} adds: say "
                                 f"{said}={SUBTRACT if meaning == ADD else FETCH_SUBTRACT}")
            if meanings.setdefault(folded(said), meaning) != meaning:
                raise WrongWords(f"{option}: {said} is given two meanings")
    return meanings


def _ok_when(given: list[str]) -> dict[str, frozenset[str]]:
    """By member, the words that say that all went well: each word, and all of them as one with commas."""
    well: dict[str, frozenset[str]] = {}
    for word in given:
        member, equals, words = word.partition("=")
        if not equals or not folded(member):
            raise WrongWords(f"--ok-when {word}: MEMBER=WORD,.. is expected, such as status=200 or error=")
        known = well.get(folded(member), frozenset())
        well[folded(member)] = known | set(map(folded, [words, *words.split(",")]))
    return well
