"""What the files of `enter` hold: declarations, edits as lines of JSON, and tables with headings of which each row is an edit.

An edit without a ticket of its own gets one that is made from its content, so that the same row sent again is the same edit.
"""
import dataclasses
import hashlib
import json
import pathlib

from client import amounts, declared, forms, headings
from client.forms import REFERENCE, TABLES, TICKET, Form, Word
from client.places import Fault, Place, Wrong
from client.spreadsheet import read_sheet


@dataclasses.dataclass(frozen=True)
class Options:
    """What a user said of the tables: fields by headings, values by what stands for them, and the decimal sign."""

    columns: dict[str, str] = dataclasses.field(default_factory=dict)
    values: dict[str, str] = dataclasses.field(default_factory=dict)
    decimal: amounts.DecimalSign | None = None
    # Whether the counts of rows with the same parent and child are added up.
    adds_up: bool = False


@dataclasses.dataclass
class Entry:
    """One thing to enter: an edit with its ticket, or the bytes of a declaration."""

    place: Place
    edit: dict | None = None
    declaration: bytes | None = None
    # The place and the text of each value, by its key.
    cells: dict[str, tuple[Place, str]] = dataclasses.field(default_factory=dict)
    # Whether its ticket was made from its content.
    is_ticket_made: bool = False
    reference: str | None = None


@dataclasses.dataclass
class Loaded:
    """A file that was read: what it was taken for, what is to be entered, and its mistakes."""

    name: str
    notes: list[str] = dataclasses.field(default_factory=list)
    entries: list[Entry] = dataclasses.field(default_factory=list)
    faults: list[Fault] = dataclasses.field(default_factory=list)


def ticket_of(edit, reference=None):
    """A ticket that is made from an edit's content. That of a shipment with a reference is made from this in place of its units."""
    content = {key: value for key, value in edit.items() if key != "ticket"}
    if reference is not None:
        content = {**content, "units": None, "reference": reference}
    text = json.dumps(content, sort_keys=True, ensure_ascii=False).encode(errors="surrogatepass")
    return f"c-{hashlib.sha256(text).hexdigest()[:32]}"


def load(path, options):
    """Reads a file for `enter`. What is wrong with it stands in the faults of what it gives."""
    loaded = Loaded(str(path))
    try:
        data = pathlib.Path(path).read_bytes()
    except OSError as fault:
        loaded.faults.append(Fault(Place(loaded.name), None, f"it can't be read: {fault.strerror}", "Look at its name and its rights."))
        return loaded
    try:
        if declared.is_declaration(data):
            _load_declaration(loaded, data)
        elif data.lstrip(b"\xef\xbb\xbf \t\r\n").startswith(b"{"):
            _load_edits(loaded, data)
        else:
            _load_table(loaded, data, options)
    except Wrong as wrong:
        loaded.faults.append(wrong.at(Place(loaded.name), None))
    return loaded


def _load_declaration(loaded, data):
    loaded.notes.append("it is a declaration")
    loaded.faults.extend(declared.faults_of(loaded.name, data))
    loaded.entries.append(Entry(Place(loaded.name), declaration=data))


def _load_edits(loaded, data):
    loaded.notes.append("it has an edit in JSON on each line")
    for number, line in enumerate(data.removeprefix(b"\xef\xbb\xbf").split(b"\n"), 1):
        if not line.strip():
            continue
        place = Place(loaded.name, number)
        try:
            edit = json.loads(line.decode())
        except ValueError as fault:
            shown = line.decode(errors="replace").strip()
            loaded.faults.append(Fault(place, shown, f"it is no JSON ({fault})", "Write one edit on each line."))
            continue
        faults = list(_json_faults(place, edit))
        loaded.faults.extend(faults)
        if not faults:
            cells = {key: (place.of(key), _shown(value)) for key, value in edit.items()}
            is_made = "ticket" not in edit
            edit = {"ticket": ticket_of(edit), **edit} if is_made else edit
            loaded.entries.append(Entry(place, edit, cells=cells, is_ticket_made=is_made))
    _tell_repeated_shipments(loaded)


def _shown(value):
    return value if isinstance(value, str) else json.dumps(value)


def _fields_of(word):
    """The fields of an edit by its word."""
    fields = {table.word: table.fields for table in TABLES}
    fields[Word.UNLINE] = [field for field in fields[Word.LINE] if field.key != "count"]
    fields[Word.UNEXEMPT] = [field for field in fields[Word.EXEMPTION] if field.key == "row"]
    fields[Word.UNSHIP] = fields[Word.SHIP]
    return [field for field in fields[word] if field is not REFERENCE]


def _json_faults(place, edit):
    """All mistakes of an edit in JSON."""
    if not isinstance(edit, dict):
        yield Fault(place, _shown(edit), "it is no object", 'Write one as {"edit":"part", ..}.')
        return
    try:
        word = Word(edit.get("edit"))
    except ValueError:
        words = ", ".join(word.value for word in Word)
        yield Fault(place.of("edit"), _shown(edit.get("edit")), "it is no edit", f"Write one of {words}.")
        return
    fields = [TICKET, *_fields_of(word)]
    for key in sorted(edit.keys() - {field.key for field in fields} - {"edit"}):
        yield Fault(place.of(key), _shown(edit[key]), f"a {word.value} has no such key", "Take it off.")
    for field in fields:
        value = edit.get(field.key)
        if value is None and (field.is_optional and (field is not TICKET or "ticket" not in edit)):
            continue
        if field.key not in edit:
            yield Fault(place.of(field.key), None, "the key is missing", f"Give the {field.form.value}.")
            continue
        try:
            _test_json(field, value)
        except Wrong as wrong:
            yield wrong.at(place.of(field.key), _shown(value))


def _test_json(field, value):
    """Whether a value of JSON is of the form of a field. Raises `Wrong`."""
    if field.form is Form.WHOLE:
        if not isinstance(value, int) or isinstance(value, bool):
            raise Wrong("it is no whole number", "write digits without quotes")
        forms.whole_in(str(value), field, None)
    elif field.form is Form.KINDS:
        if not isinstance(value, list) or not value or not all(isinstance(kind, str) for kind in value):
            raise Wrong("it is no array of kinds", 'write one as ["3","4"]')
        forms.kinds_of(" ".join(value))
    elif not isinstance(value, str):
        raise Wrong("it is no text", "write it in quotes")
    elif forms.value_of(field, value) != value:
        raise Wrong(f"it isn't written as a {field.form.value} is", f"write {forms.value_of(field, value)}")


def _load_table(loaded, data, options):
    sheet = read_sheet(loaded.name, data)
    if sheet.rows and sheet.rows[0].cells[0] == "D":
        raise Wrong("it is a supplier's sheet and not yet a declaration", "convert it by `bin/desk-client declaration`")
    tables = [dataclasses.replace(table, fields=(*table.fields, TICKET)) for table in TABLES]
    table, heads = headings.best_table(sheet, tables, options.columns)
    loaded.notes.extend([*sheet.notes, f"it is a table of {table.title}, with its headings in row {heads.row}", *heads.notes()])
    rows = list(headings.cells_of(sheet, heads))
    sign = _sign_in(loaded, table, rows, options)
    for row, texts in rows:
        entry = _entry_of(loaded, sheet, table, heads, row, texts, sign, options)
        if entry:
            loaded.entries.append(entry)
    if table.word is Word.SHIP:
        _tell_repeated_shipments(loaded)
    else:
        _join_repeated(loaded, table.word, options)


# What a row is kept under, by keys of its edit.
KEPT_UNDER = {
    Word.PART: ("code",), Word.LINE: ("parent", "child"), Word.PRODUCT: ("part",), Word.SUBSTANCE: ("code",),
    Word.MEMBER: ("substance", "rule"), Word.CANDIDATE: ("substance",), Word.EXEMPTION: ("row",),
}


def _join_repeated(loaded, word, options):
    """Rows of a table that are kept under the same codes: of lines the counts are added up where the user says so; equal others are one."""
    first, kept = {}, []
    for entry in loaded.entries:
        other = first.setdefault(tuple(entry.edit[key] for key in KEPT_UNDER[word]), entry)
        if other is entry:
            kept.append(entry)
        elif word is Word.LINE and options.adds_up:
            _add_up(loaded, other, entry)
        elif word is not Word.LINE and entry.edit == other.edit:
            loaded.notes.append(f"row {entry.place.row} is the same as row {other.place.row}, and left out")
        else:
            codes = " ".join(entry.edit[key] for key in KEPT_UNDER[word])
            remedy = "Leave one of the two."
            if word is Word.LINE:
                remedy = "Say --add-up where the child is used in both places, so that the counts are added up; else leave one of the two."
            loaded.faults.append(Fault(entry.place, codes, f"row {other.place.row} has the same {word.value}", remedy))
    loaded.entries = kept


def _add_up(loaded, entry, further):
    """Adds the count of a further line to that of an entry."""
    count = entry.edit["count"] + further.edit["count"]
    entry.edit["count"] = count
    if entry.is_ticket_made:
        entry.edit["ticket"] = ticket_of(entry.edit)
    loaded.notes.append(f"row {further.place.row} is added to row {entry.place.row}, which comes to {count}")


def _sign_in(loaded, table, rows, options):
    """The decimal sign of a table's whole numbers: as the user said, or as they show it, which is told."""
    if options.decimal:
        return options.decimal
    keys = [field.key for field in table.fields if field.form is Form.WHOLE]
    sign, shown = amounts.sign_of_all(text for _, texts in rows for key in keys if (text := texts.get(key)))
    if sign:
        loaded.notes.append(f"its numbers have a decimal {sign.title}, as `{shown}` shows")
    return sign


def _entry_of(loaded, sheet, table, heads, row, texts, sign, options):
    """The edit of a row, or None where it has mistakes, which are added to those of the file."""
    edit, cells, faults = {"edit": table.word.value}, {}, len(loaded.faults)
    for field in table.fields:
        if field.key not in heads.columns:
            continue
        given = texts[field.key]
        column = heads.columns[field.key]
        cells[field.key] = (sheet.place(row, column.number, column.heading), given)
        text = options.values.get(given, given)
        if not text and field.is_optional:
            continue
        try:
            if not text:
                raise Wrong("it is empty", f"fill in the {field.key}")
            edit[field.key] = forms.value_of(field, text, sign)
        except Wrong as wrong:
            loaded.faults.append(wrong.at(*cells[field.key]))
            continue
        if field.form in (Form.WHOLE, Form.DAY, Form.PART_KIND) and str(edit[field.key]) != given:
            loaded.notes.append(f'{cells[field.key][0].inside()} "{given}" is read as {edit[field.key]}')
    if len(loaded.faults) > faults:
        return None
    reference = edit.pop(REFERENCE.key, None)
    is_made = TICKET.key not in edit
    edit.setdefault(TICKET.key, ticket_of(edit, reference))
    return Entry(sheet.place(row), edit, cells=cells, is_ticket_made=is_made, reference=reference)


def _tell_repeated_shipments(loaded):
    """Two shipments with one made ticket would be entered once, so the second is a mistake."""
    first = {}
    for entry in loaded.entries:
        if entry.edit["edit"] not in (Word.SHIP.value, Word.UNSHIP.value) or not entry.is_ticket_made:
            continue
        other = first.setdefault(entry.edit["ticket"], entry)
        if other is not entry:
            loaded.faults.append(Fault(
                entry.place, None, f"it is the same shipment as that of row {other.place.row}",
                "Take it off; or, where both were shipped, give each a reference of its own, such as the number of its delivery note.",
            ))
