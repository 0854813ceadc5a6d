"""Where a mistake stands and what is to be done about it, for a person who has the file open."""
import dataclasses


def letters(column):
    """A column, counted from 1, as spreadsheets name it: A, B, .., Z, AA."""
    name = ""
    while column:
        column, rest = divmod(column - 1, 26)
        name = chr(ord("A") + rest) + name
    return name


@dataclasses.dataclass(frozen=True)
class Place:
    """A file, and in it perhaps a row and a cell, both counted from 1, and what the cell is for. Empty rows count."""

    file: str
    row: int | None = None
    column: int | None = None
    field: str | None = None

    def __str__(self):
        inside = self.inside()
        return f"{self.file}, {inside}" if inside else self.file

    def inside(self):
        """The place without its file."""
        words = []
        if self.row is not None:
            words.append(f"row {self.row}")
        if self.column is not None:
            words.append(f"cell {letters(self.column)}{self.row or ''}")
        return " ".join([", ".join(words), *([f"({self.field})"] if self.field else [])]).strip()

    def of(self, field):
        """The same place, with what it is for."""
        return dataclasses.replace(self, field=field)


    @property
    def order(self):
        """What sorts places of one file."""
        return self.row or 0, self.column or 0


@dataclasses.dataclass(frozen=True)
class Fault:
    """A mistake: where it stands, the value there or None, what is wrong, and what to do."""

    place: Place
    value: str | None
    what: str
    remedy: str

    def __str__(self):
        value = "" if self.value is None else f' "{shortened(self.value)}"'
        return f"{self.place}{value}: {self.what}\n    {self.remedy[:1].upper()}{self.remedy[1:].removesuffix('.')}."


class Wrong(Exception):
    """A value that can't be taken: what is wrong with it, and what to do."""

    def __init__(self, what, remedy):
        super().__init__(what)
        self.what, self.remedy = what, remedy

    def at(self, place, value):
        """The fault that this is at a place."""
        return Fault(place, value, self.what, self.remedy)


def shortened(text, most=60):
    """A value as it is shown: on one line, and cut where it is long."""
    text = "".join(letter if letter.isprintable() else f"\\x{ord(letter):02x}" for letter in text)
    return text if len(text) <= most else f"{text[:most]}.."
