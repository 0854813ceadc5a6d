"""Finds which column of a table is which, by the row of its headings."""
import dataclasses
import re

from client import amounts
from client.places import Fault, Wrong, letters

# The heading row is looked for in so many rows.
ROWS_TO_LOOK_AT = 30


def plain(heading):
    """A heading as it is compared: in small letters, without a unit in brackets, one blank between words."""
    return re.sub(r"[^\w%]+", " ", re.sub(r"[(\[].*?[)\]]", "", heading.lower())).replace("_", " ").strip()


def unit_in(heading):
    """The unit that a heading has in brackets, or None. Raises `Wrong` for another one."""
    found = re.search(r"[(\[](.*?)[)\]]", heading)
    return amounts.unit_of(found[1]) if found else None


@dataclasses.dataclass(frozen=True)
class Column:
    """A column, counted from 1, with its heading as it stands."""

    number: int
    heading: str

    def __str__(self):
        return f'column {letters(self.number)} "{self.heading}"'


@dataclasses.dataclass(frozen=True)
class Heads:
    """The row of headings, the column of each field by its key, and the columns that are none."""

    row: int
    columns: dict[str, Column]
    unused: tuple[Column, ...]
    # What is wrong where two columns may be the same field.
    clash: Wrong | None

    def notes(self):
        """What is told of the columns."""
        yield from (f"{column} is the {key}" for key, column in self.columns.items() if plain(column.heading) != key)
        if self.unused:
            yield f"not read: {', '.join(map(str, self.unused))}"


def heads_in(row, fields, named):
    """The heads that a row is for these fields; `named` has fields by headings that the user named."""
    columns, unused, clash = {}, [], None
    named = {plain(heading): key for heading, key in named.items()}
    known = {heading: field.key for field in reversed(fields) for heading in field.headings}
    keys = {field.key for field in fields}
    for number, heading in enumerate(row.cells, 1):
        wanted = named.get(plain(heading))
        key = known.get(plain(heading)) if wanted is None else wanted if wanted in keys else None
        if key is None:
            if heading:
                unused.append(Column(number, heading))
        elif key in columns:
            clash = clash or Wrong(
                f"both {columns[key]} and {Column(number, heading)} may be the {key}",
                f'say which by --column "{heading}={key}", and what the other is, such as --column "{columns[key].heading}=none"',
            )
        else:
            columns[key] = Column(number, heading)
    return Heads(row.number, columns, tuple(unused), clash)


def needed(fields):
    return [field.key for field in fields if not field.is_optional]


def best_table(sheet, tables, named):
    """The sort of table that a sheet is, and its heads: of those whose columns are all there, the one with most. Raises `Wrong`."""
    for row in sheet.rows[:ROWS_TO_LOOK_AT]:
        fitting = {}
        for table in tables:
            heads = heads_in(row, table.fields, named)
            if all(key in heads.columns for key in needed(table.fields)):
                fitting.setdefault(len(heads.columns), []).append((table, heads))
        if fitting:
            best = fitting[max(fitting)]
            if len(best) > 1:
                raise Wrong(
                    f"row {row.number} may be the headings of {' or of '.join(table.title for table, _ in best)}",
                    "name its columns as docs/CLIENT.md does",
                )
            if best[0][1].clash:
                raise best[0][1].clash
            return best[0]
    raise Wrong("no row has the headings of a table", f"it has to have one of these: {_lists(tables)}")


def _lists(tables):
    """The tables with the first heading of each column that has to be there."""
    return "; ".join(
        f"{table.title}: {', '.join(field.headings[0] for field in table.fields if not field.is_optional)}" for table in tables
    )


def cells_of(sheet, heads):
    """The rows below the headings, each with the texts of its cells by the fields' keys."""
    for row in sheet.rows:
        if row.number > heads.row:
            yield row, {key: row.cell(column.number) for key, column in heads.columns.items()}


def value_fault(sheet, row, heads, key, text, wrong):
    """The fault of a value in its cell."""
    column = heads.columns[key]
    return Fault(sheet.place(row, column.number, column.heading), text, wrong.what, wrong.remedy)
