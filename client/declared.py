"""A declaration as the desk takes it: written, and looked through for all its mistakes and not the first alone.

The desk judges a declaration itself. What is looked for here is what docs/FORMATS.md says of its rows.
"""
import csv
import dataclasses
import datetime
import io
import re

from client import forms
from client.amounts import FIRST_DAY
from client.law import LAST_DAY, Rule
from client.places import Fault, Place, Wrong

MOST_MASS = 10**15
MOST_NUMBER = 2**64 - 1
MOST_MATERIALS, MOST_SUBSTANCES, MOST_CLAIMS = 256, 64, 16
MOST_BYTES = 65536


@dataclasses.dataclass
class Material:
    """A material of a declaration: masses in micrograms, and claims of exemptions by rule and number."""

    code: str
    name: str
    mass: int
    substances: dict[str, int]
    claims: list[tuple[Rule, str]]


@dataclasses.dataclass
class Declaration:
    """A declaration of a supplier."""

    supplier: str
    number: int
    day: datetime.date
    materials: list[Material]

    def csv(self):
        """Its bytes, as the desk takes them."""
        text = io.StringIO()
        write = csv.writer(text, lineterminator="\n").writerow
        write(["D", 1, self.supplier, self.number, self.day.isoformat()])
        for material in self.materials:
            write(["M", material.code, material.name, material.mass])
            for substance, mass in material.substances.items():
                write(["S", material.code, substance, mass])
            for rule, number in material.claims:
                write(["E", material.code, rule.value, number])
        return text.getvalue().encode()


def _whole(text, least, most):
    if not re.fullmatch(r"0|[1-9]\d*", text) or not least <= int(text) <= most:
        raise Wrong(
            f"it isn't a whole number from {least} to {most}",
            "write it without sign, separators, decimals and unit; masses are in micrograms, and `bin/desk-client declaration` converts others",
        )


def _day(text):
    try:
        if not re.fullmatch(r"\d{4}-\d\d-\d\d", text) or not FIRST_DAY <= datetime.date.fromisoformat(text) <= LAST_DAY:
            raise ValueError
    except ValueError:
        raise Wrong("it isn't a day from 2000 to 2099", "write it as 2024-01-23") from None


# The columns behind the first of each sort of row: what they are, and what tests a value.
COLUMNS = {
    "D": (("version", None), ("supplier", forms.code_of), ("number", lambda text: _whole(text, 1, MOST_NUMBER)), ("day", _day)),
    "M": (("material", forms.code_of), ("name", forms.name_of), ("mass", lambda text: _whole(text, 1, MOST_MASS))),
    "S": (("material", forms.code_of), ("substance", forms.code_of), ("mass", lambda text: _whole(text, 0, MOST_MASS))),
    "E": (("material", forms.code_of), ("rule", forms.rule_of), ("number", forms.number_of_exemption)),
}


@dataclasses.dataclass(frozen=True)
class Record:
    """A row that isn't empty: its place in the file, and its fields."""

    place: Place
    fields: tuple[str, ...]

    def at(self, column):
        """The place of a field, counted from 1, with what it is for."""
        columns = COLUMNS.get(self.fields[0], ())
        field = columns[column - 2][0] if 2 <= column <= len(columns) + 1 else None
        return Place(self.place.file, self.place.row, column, field)

    def fault(self, column, what, remedy):
        value = self.fields[column - 1] if column <= len(self.fields) else None
        return Fault(self.at(column), value, what, remedy)


def is_declaration(data):
    """Whether the bytes of a file begin as a declaration does."""
    return bool(re.match(rb'(?:\xef\xbb\xbf)?[\r\n]*"?D"?,', data))


def records_of(name, data):
    """The rows of a declaration that aren't empty, each as a `Record`. Raises `Wrong` where the bytes aren't UTF-8."""
    try:
        text = data.removeprefix(b"\xef\xbb\xbf").decode()
    except UnicodeDecodeError as fault:
        row = data[: fault.start].count(b"\n") + 1
        raise Wrong(f"line {row} isn't UTF-8", "save it as CSV UTF-8, or convert it by `bin/desk-client declaration`") from fault
    return [
        Record(Place(name, number), tuple(fields))
        for number, fields in enumerate(csv.reader(io.StringIO(text, newline="")), 1)
        if fields
    ]


def _fields_faults(record):
    """The mistakes of a row by itself."""
    columns = COLUMNS[record.fields[0]]
    for column, (field, test) in enumerate(columns, 2):
        if column > len(record.fields):
            yield record.fault(column, f"the {field} is missing", "fill it in")
            continue
        try:
            if test:
                test(record.fields[column - 1])
        except Wrong as wrong:
            yield wrong.at(record.at(column), record.fields[column - 1])
    if len(record.fields) > len(columns) + 1:
        column = len(columns) + 2
        yield record.fault(column, f"a row {record.fields[0]} has {len(columns) + 1} fields", "take off the commas at its end")


class _Seen:
    """What the rows before have, to tell repetitions and rows of no material."""

    def __init__(self):
        self.rows = {}
        self.counts = {}

    def faults(self, record):
        sort, material = record.fields[0], record.fields[1]
        key = (sort, material) if sort == "M" else (sort, *record.fields[1:3]) if sort == "S" else (sort, *record.fields[1:4])
        if sort != "M" and ("M", material) not in self.rows:
            yield record.fault(2, "no M row of this material stands above", "put its M row above, with the same code")
        if key in self.rows:
            column = 2 if sort == "M" else 3
            yield record.fault(column, f"row {self.rows[key]} has it already", "leave one of the two, and add masses up")
        self.rows.setdefault(key, record.place.row)
        group = (sort, "" if sort == "M" else material)
        self.counts[group] = self.counts.get(group, 0) + 1
        most = {"M": MOST_MATERIALS, "S": MOST_SUBSTANCES, "E": MOST_CLAIMS}[sort]
        if self.counts[group] == most + 1:
            yield record.fault(1, f"there are more than {most} such rows", "send several declarations")


def faults_of(name, data):
    """All mistakes of a declaration, in order of its rows."""
    try:
        records = records_of(name, data)
    except Wrong as wrong:
        return [wrong.at(Place(name), None)]
    faults, seen = [], _Seen()
    if len(data) > MOST_BYTES:
        faults.append(Fault(Place(name), None, f"it has more than {MOST_BYTES} bytes", "send several declarations"))
    if not records or records[0].fields[:2] != ("D", "1"):
        place = records[0].place if records else Place(name)
        faults.append(Fault(place, None, "it doesn't begin with a row D,1", "put the D row first, or convert it by `bin/desk-client declaration`"))
    for number, record in enumerate(records):
        sort = record.fields[0]
        if sort not in COLUMNS or (sort == "D") != (number == 0):
            if number:
                faults.append(record.fault(1, "it is none of M, S and E", "begin each row with one of them; a file has one D row, the first"))
            continue
        faults.extend(_fields_faults(record))
        if sort != "D" and len(record.fields) > 3:
            faults.extend(seen.faults(record))
    return faults
