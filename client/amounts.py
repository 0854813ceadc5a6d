"""Numbers, units and days as people and spreadsheets write them, read exactly: a number is a `Fraction` and never a float."""
import dataclasses
import datetime
import enum
import fractions
import math
import re

from client.law import LAST_DAY
from client.places import Wrong

FIRST_DAY = datetime.date(2000, 1, 1)


class DecimalSign(enum.Enum):
    """What stands before the decimals."""

    COMMA = ","
    POINT = "."

    @property
    def title(self):
        return {",": "comma", ".": "point"}[self.value]

    @property
    def other(self):
        return DecimalSign.POINT if self is DecimalSign.COMMA else DecimalSign.COMMA


class Unit(enum.Enum):
    """A unit of mass, or of a part in a mass."""

    KILOGRAM = "kg"
    GRAM = "g"
    MILLIGRAM = "mg"
    MICROGRAM = "ug"
    PPM = "ppm"
    PERCENT = "%"

    @property
    def micrograms(self):
        """How many micrograms one is, or None for a part in a mass."""
        return {"kg": 10**9, "g": 10**6, "mg": 10**3, "ug": 1}.get(self.value)

    @property
    def millionths(self):
        """How many millionths of the whole one is, or None for a mass."""
        return {"ppm": 1, "%": 10**4}.get(self.value)


UNIT_WORDS = {
    "kg": Unit.KILOGRAM, "g": Unit.GRAM, "gram": Unit.GRAM, "grams": Unit.GRAM, "mg": Unit.MILLIGRAM, "ug": Unit.MICROGRAM,
    "µg": Unit.MICROGRAM, "μg": Unit.MICROGRAM, "mcg": Unit.MICROGRAM, "ppm": Unit.PPM, "mg/kg": Unit.PPM, "ug/g": Unit.PPM,
    "%": Unit.PERCENT, "percent": Unit.PERCENT, "wt%": Unit.PERCENT, "wt.%": Unit.PERCENT, "w/w%": Unit.PERCENT, "% w/w": Unit.PERCENT,
}


def unit_of(text):
    """The unit that a word names. Raises `Wrong`."""
    unit = UNIT_WORDS.get(text.strip().lower())
    if unit is None:
        raise Wrong(f"the unit `{text.strip()}` isn't known", "write kg, g, mg, ug, ppm or %")
    return unit


_DIGITS = re.compile(r"\d+(?:[.,]\d+)*")
_GROUPED = re.compile(r"\d{1,3}(?:[ '\u2019\u00a0\u202f]\d{3})+(?=[.,]|$)")


def _ungrouped(text):
    """The number without blanks or apostrophes between groups of three digits."""
    found = _GROUPED.match(text)
    return re.sub(r"[ '\u2019\u00a0\u202f]", "", found[0]) + text[found.end():] if found else text


def shown_sign(number):
    """The decimal sign that a number shows to be in use, or None where it shows none."""
    number = _ungrouped(number)
    signs = re.findall("[.,]", number)
    if not signs:
        return None
    last = DecimalSign(signs[-1])
    if len(set(signs)) == 2:
        return last
    if len(signs) > 1:
        return last.other
    whole, _, rest = number.partition(last.value)
    return last if len(rest) != 3 or whole == "0" or len(whole) > 3 else None


def is_ambiguous(number):
    """Whether a number is another one by comma than by point, and doesn't show which is meant: `1,000` is 1000 or 1."""
    return bool(re.search("[.,]", number)) and shown_sign(number) is None


def number_of(text, sign):
    """The number that a text is, where the decimals stand behind `sign`, which may be None where that isn't known. Raises `Wrong`."""
    if re.fullmatch(r"[\d.,]+[eE][+-]?\d+", text):
        raise Wrong("the spreadsheet has shortened the number", "set the cell to text, and write all digits")
    number = _ungrouped(text)
    if not _DIGITS.fullmatch(number):
        raise Wrong("it isn't a number", "write digits, with a comma or a point before the decimals")
    if sign is None and is_ambiguous(number):
        raise Wrong("it may be thousands or decimals", "say which by --decimal comma or --decimal point, or write it without the sign")
    sign = sign or shown_sign(number) or DecimalSign.POINT
    whole, _, decimals = number.partition(sign.value)
    groups = whole.split(sign.other.value)
    if sign.value in decimals or sign.other.value in decimals:
        raise Wrong("it has more than one decimal sign", "write one number")
    if len(groups) > 1 and (not 1 <= len(groups[0]) <= 3 or any(len(group) != 3 for group in groups[1:])):
        raise Wrong(f"it isn't a number with a decimal {sign.title}, as the sheet has", f"write it with a {sign.title} before the decimals")
    return fractions.Fraction(int("".join(groups) + decimals), 10 ** len(decimals))


def sign_of_all(numbers):
    """The decimal sign that is in use in all these texts and the first that shows it, each None where none shows one. Raises `Wrong`."""
    shown = {}
    for text in numbers:
        if (sign := shown_sign(text)) is not None:
            shown.setdefault(sign, text)
    if len(shown) == 2:
        comma, point = shown[DecimalSign.COMMA], shown[DecimalSign.POINT]
        raise Wrong(f"`{comma}` has a decimal comma and `{point}` a decimal point", "write all numbers of the sheet in one way")
    return next(iter(shown.items()), (None, None))


@dataclasses.dataclass(frozen=True)
class Amount:
    """A number with its unit; `is_bound` where the text says that there is less than that."""

    number: fractions.Fraction
    unit: Unit
    is_bound: bool

    def micrograms(self, whole=None):
        """The mass in micrograms, exactly; of a part in a mass that of `whole` micrograms."""
        if self.unit.micrograms is not None:
            return self.number * self.unit.micrograms
        return self.number * self.unit.millionths * whole / 10**6


_AMOUNT = re.compile(
    r"(?P<bound><=?|≤|less than)?\s*"
    r"(?P<number>\d(?:[\d.,'\u2019 \u00a0\u202f]*\d)?(?:[eE][+-]?\d+)?)\s*"
    r"(?P<unit>[^\d\s].*)?",
    re.I,
)


def number_in(text):
    """The number of an amount as it is written, or the empty text."""
    found = _AMOUNT.fullmatch(text)
    return found["number"] if found else ""


def amount_of(text, sign, unit=None):
    """The amount that a cell has; `unit` is that of its column, where it has none itself. Raises `Wrong`."""
    found = _AMOUNT.fullmatch(text)
    if not found:
        raise Wrong("it isn't an amount", "write a number with its unit, such as 2.5 g or 69,7 ppm, and 0 where there is nothing")
    number = number_of(found["number"], sign)
    own = unit_of(found["unit"]) if found["unit"] else None
    if own is None and unit is None:
        raise Wrong("it has no unit", "write kg, g, mg, ug, ppm or % behind the number, into the heading or into a column of units")
    if own is not None and unit is not None and own is not unit:
        raise Wrong(f"its unit is {own.value}, and that of its column {unit.value}", "write one of them")
    return Amount(number, own or unit, bool(found["bound"]))


def whole_of(text, sign):
    """The whole number that a cell has. Raises `Wrong`."""
    number = number_of(text, sign)
    if number.denominator != 1:
        raise Wrong("it isn't a whole number", "write a whole number")
    return int(number)


def day_of(text):
    """The day that a text is, as `2024-01-23`, `23.01.2024`, or with slashes where one reading alone is a day. Raises `Wrong`."""
    if found := re.fullmatch(r"(\d{4})-(\d\d?)-(\d\d?)(?:[T ]00:00(?::00)?)?", text):
        readings = [(found[1], found[2], found[3])]
    elif found := re.fullmatch(r"(\d\d?)\.(\d\d?)\.(\d{4})", text):
        readings = [(found[3], found[2], found[1])]
    elif found := re.fullmatch(r"(\d\d?)/(\d\d?)/(\d{4})", text):
        readings = [(found[3], found[2], found[1]), (found[3], found[1], found[2])]
    else:
        raise Wrong("it isn't a day", "write it as 2024-01-23")
    days = set()
    for year, month, day in readings:
        try:
            days.add(datetime.date(int(year), int(month), int(day)))
        except ValueError:
            pass
    if len(days) > 1:
        raise Wrong("it may be one of two days", "write it as 2024-01-23")
    if not days or not FIRST_DAY <= min(days) <= LAST_DAY:
        raise Wrong("there is no such day from 2000 to 2099", "write it as 2024-01-23")
    return min(days)


def rounded_down(number):
    return math.floor(number)


def rounded_up(number):
    return math.ceil(number)
