"""Tables as spreadsheets save them: bytes of some encoding, cells between some separator, rows filled up with empty cells.

Nothing is taken for something else without a word: a `Sheet` tells in `notes` how its bytes were read.
"""
import csv
import dataclasses
import enum
import io

from client.places import Place, Wrong

# No cell is longer than the longest file.
csv.field_size_limit(2**31 - 1)
# Blanks that spreadsheets put around values: the space, the tab and the space that doesn't break.
BLANKS = " \t\u00a0\u202f\u2007"


class Separator(enum.Enum):
    """What stands between two cells."""

    COMMA = ","
    SEMICOLON = ";"
    TAB = "\t"

    @property
    def title(self):
        return {",": "commas", ";": "semicolons", "\t": "tabs"}[self.value]


@dataclasses.dataclass(frozen=True)
class Row:
    """A row by its number, counted from 1 with empty rows, and its cells without blanks around them and without empty ones at the end."""

    number: int
    cells: tuple[str, ...]

    def cell(self, column):
        """The text of a cell, counted from 1; empty where the row is shorter."""
        return self.cells[column - 1] if column <= len(self.cells) else ""


@dataclasses.dataclass(frozen=True)
class Sheet:
    """The rows of a file that aren't empty, and how its bytes were read."""

    name: str
    rows: tuple[Row, ...]
    notes: tuple[str, ...]

    def place(self, row, column=None, field=None):
        return Place(self.name, row.number, column, field)


def decoded(data):
    """The text of a file, and a note on its encoding where that isn't plain UTF-8."""
    for mark, encoding, title in (
        (b"\xef\xbb\xbf", "utf-8", "UTF-8 with a byte-order mark"),
        (b"\xff\xfe", "utf-16-le", "UTF-16"),
        (b"\xfe\xff", "utf-16-be", "UTF-16"),
    ):
        if data.startswith(mark):
            try:
                return data[len(mark):].decode(encoding), [f"it is {title}"]
            except UnicodeDecodeError as fault:
                raise Wrong(f"it begins as {title} and isn't that throughout", "save it as CSV UTF-8") from fault
    try:
        return data.decode(), []
    except UnicodeDecodeError:
        pass
    try:
        text, title = data.decode("cp1252"), "Windows-1252 (Latin-1)"
    except UnicodeDecodeError:
        text, title = data.decode("latin-1"), "Latin-1"
    number, line = next((place, it) for place, it in enumerate(text.splitlines(), 1) if not it.isascii())
    return text, [f"it isn't UTF-8 and is read as {title}; look at line {number}: {line.strip()[:60]}"]


def separator_of(text):
    """The separator of a text: the one that its first line with any has most of, and of two as many the tab, then the semicolon."""
    for line in text.splitlines():
        counts = {separator: line.count(separator.value) for separator in (Separator.TAB, Separator.SEMICOLON, Separator.COMMA)}
        if any(counts.values()):
            return max(counts, key=counts.get)
    return Separator.COMMA


def read_sheet(name, data, separator=None):
    """The sheet that the bytes of a file are; `separator` is found where none is given. Raises `Wrong` where they are no text."""
    text, notes = decoded(data)
    if "\0" in text:
        raise Wrong("it has bytes 0, so it is no text", "save it as CSV UTF-8")
    first, _, rest = text.partition("\n")
    skipped = 0
    if first.strip().lower().startswith("sep=") and len(first.strip()) == 5:
        separator, text, skipped = Separator(first.strip()[4]), rest, 1
    if separator is None:
        separator = separator_of(text)
    notes.append(f"its cells are separated by {separator.title}")
    rows, trimmed, padded = [], 0, 0
    for number, cells in enumerate(csv.reader(io.StringIO(text, newline=""), delimiter=separator.value), 1 + skipped):
        stripped = [cell.strip(BLANKS) for cell in cells]
        trimmed += sum(one != other for one, other in zip(cells, stripped))
        length = max((place for place, cell in enumerate(stripped, 1) if cell), default=0)
        if length:
            padded += length < len(cells)
            rows.append(Row(number, tuple(stripped[:length])))
    if trimmed:
        notes.append(f"blanks around the values of {trimmed} cells are taken off")
    if padded:
        notes.append(f"empty cells at the end of {padded} rows are taken off")
    return Sheet(name, tuple(rows), tuple(notes))
