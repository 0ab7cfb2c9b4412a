"""Time stamps as whole numbers of one scale, exactly: comparing them is comparing the source's own times."""
import datetime
import re
from decimal import Decimal, InvalidOperation
from typing import Any, NamedTuple, Optional

from regkit.base.limits import GREATEST_VALUE
from regkit.convert.model import Refused, WrongWords

UNITS = {"ns": 0, "us": 3, "ms": 6, "s": 9}  # by name, how many nanoseconds: the exponent of ten
_WHOLE = re.compile(r"-?[0-9]+")
_DURATION = re.compile(r"([0-9]+(?:\.[0-9]+)?(?:[eE][+-]?[0-9]{1,2})?)\s*(ns|us|\u00b5s|\u03bcs|ms|s)?")
_UNIT_IN_NAME = re.compile(r".*[_\s(.-](ns|us|ms|s)\)?")  # latency_ms, Duration (us)
_ERROR = re.compile(r"([0-9]+(?:\.[0-9]+)?)(ns|us|ms|s)?")
_STAMP = re.compile(
    r"(\d{4})-(\d\d)-(\d\d)[T ](\d\d):(\d\d):(\d\d)(?:[.,](\d{1,18}))?(Z|[+-]\d\d:?\d\d)?", re.ASCII)
_EPOCH = datetime.date(1970, 1, 1).toordinal() * 86400 * 10 ** UNITS["s"]
_MOST_EXPONENT = 40  # a time beyond 10^40, or finer than 10^-40, is a mistake


class Time(NamedTuple):
    """The time digits * 10^exponent in the source's unit. A date with a time of day is in seconds."""

    digits: int
    exponent: int


class DurationUnit(NamedTuple):
    """What may say the unit of a duration that has none itself: the name of its column, and options."""

    name: str
    said: Optional[str]  # by --duration-unit, perhaps `clock`
    of_clock: Optional[str]  # by --clock-unit


class Clock:
    """Reads the times of a source, all of one kind, and scales them."""

    def __init__(self) -> None:
        self.kind: Optional[str] = None  # what the first time was: a number, or a date with or without a zone
        self.kind_line = 0
        self.least = 0  # the least exponent

    def read(self, value: Any, line: int, what: str) -> Time:
        """A time of the source: a number, or a date with a time of day. Raises Refused."""
        if type(value) is int or (type(value) is str and _WHOLE.fullmatch(value.strip())):
            kind, time = "a number", Time(int(value), 0)
        else:
            kind, time = _decimal(value) or _stamp(value) or _no_time(value, line, what)
        if kind != self.kind:
            if self.kind is not None:
                raise Refused(f"{what} is {kind}, and at line {self.kind_line} {self.kind}: let all times be "
                              "of one kind", line)
            self.kind, self.kind_line = kind, line
        if time.exponent < self.least:
            self.least = time.exponent
        return time

    def duration(self, value: Any, unit: DurationUnit, line: int) -> Time:
        """A duration in the unit of the source's clock. Raises Refused if its own unit isn't known."""
        found = _DURATION.fullmatch(str(value).strip()) if type(value) in (int, str, Decimal) else None
        if found is None:
            raise Refused(f"{unit.name} is {value!r}, and a number from 0 is expected, perhaps with ns, us, "
                          "ms or s", line)
        named = _UNIT_IN_NAME.fullmatch(unit.name.lower())
        its = found[2] or unit.said or (named[1] if named else "")
        its = its.replace("\u00b5", "u").replace("\u03bc", "u")
        own = unit.of_clock if self.kind == "a number" else "s"
        if not its or (own is None and its != "clock"):
            option = "--duration-unit" if not its else "--clock-unit"
            raise Refused(f"{unit.name} is {found[0]}, and nobody knows of which unit "
                          f"{'that' if not its else 'the'}"
                          f"{' is' if not its else ' clock is'}: say {option} ns, us, ms or s"
                          f"{', or clock if it is that of the times' if not its else ''}", line)
        digits, places = _digits(Decimal(found[1]))
        time = Time(digits, places if its == "clock" or own is None else places + UNITS[its] - UNITS[own])
        self.least = min(self.least, time.exponent)
        return time

    def sum(self, one: Time, other: Time) -> Time:
        """A time so much later."""
        least = min(one.exponent, other.exponent)
        return Time(sum(each.digits * 10 ** (each.exponent - least) for each in (one, other)), least)

    def error(self, words: Optional[str], unit: Optional[str]) -> Time:
        """The clock error that the options state, in the source's unit. Raises WrongWords."""
        found = _ERROR.fullmatch(words or "0")
        if found is None:
            raise WrongWords(f"--clock-error {words}: a number with ns, us, ms or s is expected, such as 5ms")
        own = unit if self.kind in (None, "a number") else "s"
        if found[2] and not own:
            raise WrongWords(f"--clock-error {words} needs --clock-unit ns, us, ms or s: it says what a "
                             "number of the source's clock means")
        exponent = UNITS[found[2]] - UNITS[own] if found[2] and own else 0
        digits, places = _digits(Decimal(found[1]))
        self.least = min(self.least, places + exponent)
        return Time(digits, places + exponent)

    def nanoseconds(self, time: Time, unit: Optional[str]) -> Optional[int]:
        """A time from 0 to the greatest value, if the source's unit is known. A date counts from 1970."""
        own = unit if self.kind == "a number" else "s"
        if own is None:
            return None
        exponent = time.exponent + UNITS[own]
        found = time.digits * 10 ** exponent if exponent >= 0 else time.digits // 10 ** -exponent
        if self.kind != "a number":
            found -= _EPOCH
        return found if 0 <= found <= GREATEST_VALUE else None

    def scaled(self, times: list[Time]) -> list[int]:
        """Times in units of the least exponent."""
        least = self.least
        if not least:
            return [time.digits if not time.exponent else time.digits * 10 ** time.exponent for time in times]
        return [time.digits * 10 ** (time.exponent - least) for time in times]


def _digits(number: Decimal) -> tuple[int, int]:
    sign, digits, exponent = number.as_tuple()
    value = int("".join(map(str, digits)))
    return (-value if sign else value), int(exponent)


def _decimal(value: Any) -> Optional[tuple[str, Time]]:
    if type(value) not in (str, Decimal):
        return None
    try:
        number = Decimal(value.strip() if type(value) is str else value)
    except InvalidOperation:
        return None
    if not number.is_finite() or abs(number.adjusted()) > _MOST_EXPONENT or "_" in str(value):
        return None
    time = Time(*_digits(number))
    return ("a number", time) if abs(time.exponent) <= _MOST_EXPONENT else None


def _stamp(value: Any) -> Optional[tuple[str, Time]]:
    """A date with a time of day, such as 2026-11-23T05:49:42.123Z."""
    found = _STAMP.fullmatch(value.strip()) if type(value) is str else None
    if found is None:
        return None
    try:
        day = datetime.date(int(found[1]), int(found[2]), int(found[3])).toordinal()
        datetime.time(int(found[4]), int(found[5]), int(found[6]))
    except ValueError:
        return None
    seconds = day * 86400 + int(found[4]) * 3600 + int(found[5]) * 60 + int(found[6])
    zone, fraction = found[8], found[7] or ""
    if zone and zone != "Z":
        ahead = int(zone[1:3]) * 3600 + int(zone[-2:]) * 60
        seconds += ahead if zone[0] == "-" else -ahead
    kind = "a date with a time zone" if zone else "a date without a time zone"
    return kind, Time(int(f"{seconds}{fraction}"), -len(fraction))


def _no_time(value: Any, line: int, what: str) -> tuple[str, Time]:
    raise Refused(f"{what} is {value!r}, and a number or a date such as 2026-11-23T05:49:42.123Z is expected",
                  line)
