"""Makes a declaration of a supplier's sheet, as spreadsheets save it. Each conversion is told, and all mistakes are named by their cells.

A sheet has one of two layouts: the rows D, M, S and E of the template of docs/SUPPLIERS.md, or a table with headings of which each row
has a material and perhaps one substance in it. Masses are reckoned exactly, that of a material is rounded down to whole micrograms and
that of a substance up, so that no substance counts for less than it is.
"""
import dataclasses
import fractions

from client import amounts, declared, figures, forms, headings
from client.amounts import Unit
from client.declared import Declaration, Material
from client.forms import Field, Form
from client.law import SUBSTANCE_WORDS, Rule
from client.places import Fault, Place, Wrong, letters
from client.spreadsheet import Row, read_sheet

# The mass of a material of which only parts in a mass are known, in micrograms: a portion of one gram.
PORTION = 10**6

FIELDS = (
    Field("material", Form.CODE, ("material", "material code", "code", "homogeneous material", "part", "item")),
    Field("name", Form.NAME, ("name", "material name", "description", "text"), is_optional=True),
    Field("mass", Form.WHOLE, ("mass", "weight", "material mass", "material weight", "mass of material"), is_optional=True),
    Field("mass unit", Form.NAME, ("mass unit", "unit of mass", "weight unit"), is_optional=True),
    Field("substance", Form.CODE, ("substance", "restricted substance", "substance name", "cas", "cas number")),
    Field("amount", Form.WHOLE, ("amount", "content", "concentration", "substance mass", "mass of substance", "share", "value")),
    Field("amount unit", Form.NAME, ("amount unit", "unit of amount", "content unit", "concentration unit"), is_optional=True),
    Field("exemption", Form.NUMBER_OF_EXEMPTION, ("exemption", "exemption number", "rohs exemption", "claim"), is_optional=True),
    Field("rule", Form.RULE, ("rule", "exemption for"), is_optional=True),
)
# Words in front of what the D row has, in a sheet with headings.
HEAD_WORDS = {
    "supplier": "supplier", "supplier code": "supplier", "declaration": "number", "declaration number": "number", "number": "number",
    "day": "day", "date": "day", "declared on": "day", "date of declaration": "day",
}


@dataclasses.dataclass(frozen=True)
class Options:
    """What a user says of a sheet; what is None has to stand in it."""

    supplier: str | None = None
    number: str | None = None
    day: str | None = None
    columns: dict[str, str] = dataclasses.field(default_factory=dict)
    decimal: amounts.DecimalSign | None = None
    # Whether a material without a mass is declared as a portion of one gram.
    has_portions: bool = False


@dataclasses.dataclass
class Cell:
    """A text of the sheet and its place."""

    place: Place
    text: str


@dataclasses.dataclass
class GivenSubstance:
    """A substance as the sheet has it: its cells, and its code once that is read."""

    name: Cell
    amount: Cell
    unit: Unit | None
    code: str | None = None


@dataclasses.dataclass
class GivenMaterial:
    """A material as the sheet has it."""

    code: Cell
    name: Cell
    mass: Cell
    mass_unit: Unit | None
    substances: list[GivenSubstance] = dataclasses.field(default_factory=list)
    claims: list[tuple[Rule, str]] = dataclasses.field(default_factory=list)


@dataclasses.dataclass
class Conversion:
    """What became of a sheet: the declaration where there is no mistake, how it was read, and the mistakes."""

    declaration: Declaration | None = None
    notes: list[str] = dataclasses.field(default_factory=list)
    faults: list[Fault] = dataclasses.field(default_factory=list)


class Converter:
    """Converts one sheet, and gathers what is told of it."""

    def __init__(self, name, options):
        self.name, self.options = name, options
        self.notes, self.faults = [], []
        self.head = {"supplier": None, "number": None, "day": None}
        self.materials = {}
        self.sign = None

    def convert(self, data, separator=None):
        """The conversion of a sheet's bytes."""
        try:
            sheet = read_sheet(self.name, data, separator)
            self.notes.extend(sheet.notes)
            self.read(sheet)
            declaration = self.declaration()
        except Wrong as wrong:
            self.faults.append(wrong.at(Place(self.name), None))
        if not self.faults:
            # What the desk takes is looked at once more, as it will be sent.
            self.faults.extend(declared.faults_of("the converted declaration", declaration.csv()))
        self.faults.sort(key=lambda fault: fault.place.order)
        return Conversion(None if self.faults else declaration, self.notes, self.faults)

    def read(self, sheet):
        """Takes the sheet's cells apart, by its layout."""
        top = next((place for place, row in enumerate(sheet.rows) if (row.cells[0].upper(), row.cell(2)) == ("D", "1")), None)
        if top is not None:
            self.read_rows(sheet, top)
        else:
            self.read_table(sheet)

    # ---- the rows D, M, S and E

    def read_rows(self, sheet, top):
        """Reads a sheet of the template's rows; what stands above its D row isn't read."""
        self.notes.append(f"it has the rows D, M, S and E of the template, from row {sheet.rows[top].number} on")
        self.notes.extend(f"row {row.number} above the D row isn't read: {' '.join(row.cells)}" for row in sheet.rows[:top])
        rows = sheet.rows[top:]
        self.sign = self.sign_in(row.cell(4) for row in rows if row.cells[0].upper() in ("M", "S"))
        for row in rows:
            sort = row.cells[0].upper()
            if sort == "D" and row is rows[0]:
                for column, key in enumerate(("supplier", "number", "day"), 3):
                    self.head[key] = Cell(sheet.place(row, column, key), row.cell(column))
            elif sort in ("M", "S", "E"):
                self.read_row(sheet, row, sort)
            else:
                self.fault(Cell(sheet.place(row, 1), row.cells[0]), "it is none of M, S and E", "begin each row with one of them, or take it off")

    def read_row(self, sheet, row, sort):
        """Reads a row M, S or E. A fifth cell of M and S may have the unit."""
        named = {"M": ("material", "name", "mass", "unit"), "S": ("material", "substance", "amount", "unit"), "E": ("material", "rule", "number")}
        cells = [Cell(sheet.place(row, column, key), row.cell(column)) for column, key in enumerate(named[sort], 2)]
        for column in range(len(cells) + 2, len(row.cells) + 1):
            further = Cell(sheet.place(row, column), row.cell(column))
            self.fault(further, "the row has a cell too many", "take it off, or put the unit behind the mass")
        code = cells[0]
        if sort == "M":
            self.add_material(code, cells[1], cells[2], self.unit_of_row(cells[2], cells[3]))
        elif code.text not in self.materials:
            self.fault(code, "no M row of this material stands above", "put its M row above, with the same code")
        elif sort == "S":
            self.add_substance(self.materials[code.text], cells[1], cells[2], self.unit_of_row(cells[2], cells[3]))
        else:
            self.add_claim(self.materials[code.text], cells[1], cells[2])

    def unit_of_row(self, cell, unit):
        """The unit in a row's fifth cell. A whole number without a unit is micrograms, as in the template."""
        if unit.text:
            return self.taken(unit, amounts.unit_of)
        if cell.text.isdecimal():
            return Unit.MICROGRAM
        return None

    # ---- a table with headings

    def read_table(self, sheet):
        """Reads a sheet with headings, and the words above them."""
        rows = [self.with_units(row) for row in sheet.rows]
        table = forms.Table(None, "materials", FIELDS)
        _, heads = headings.best_table(dataclasses.replace(sheet, rows=tuple(rows)), [table], self.options.columns)
        self.notes.append(f"it has its headings in row {heads.row}")
        self.notes.extend(heads.notes())
        for row in sheet.rows:
            if row.number < heads.row:
                self.read_head(sheet, row)
            elif row.number == heads.row:
                self.tell_units(row)
        body = list(headings.cells_of(sheet, heads))
        self.sign = self.sign_in(texts.get(key, "") for _, texts in body for key in ("mass", "amount"))
        units = {key: self.unit_of_heading(sheet, heads, key) for key in ("mass", "amount")}
        last = None
        for row, texts in body:
            cells = {key: Cell(sheet.place(row, column.number, column.heading), texts[key]) for key, column in heads.columns.items()}
            for field in FIELDS:
                cells.setdefault(field.key, Cell(sheet.place(row), ""))
            last = self.read_table_row(cells, units, last) or last

    def with_units(self, row):
        """A row in which a heading `Unit` is said to be that of the column before it."""
        cells = list(row.cells)
        known = {heading: field.key for field in FIELDS for heading in field.headings}
        for place, cell in enumerate(cells[1:], 1):
            before = known.get(headings.plain(cells[place - 1]))
            if headings.plain(cell) in ("unit", "uom") and before in ("mass", "amount"):
                cells[place] = f"{before} unit"
        return Row(row.number, tuple(cells))

    def tell_units(self, row):
        """Tells which headings `Unit` are taken for those of the column before them."""
        for column, (was, taken) in enumerate(zip(row.cells, self.with_units(row).cells), 1):
            if was != taken:
                self.notes.append(f'column {letters(column)} "{was}" is the {taken}, as it stands behind column {letters(column - 1)}')

    def read_head(self, sheet, row):
        """Reads a row above the headings: a word and its value."""
        key = HEAD_WORDS.get(headings.plain(row.cells[0].rstrip(":")))
        if key is None or len(row.cells) < 2:
            self.notes.append(f"row {row.number} isn't read: {' '.join(cell for cell in row.cells if cell)}")
        else:
            self.head[key] = Cell(sheet.place(row, 2, key), row.cell(2))

    def unit_of_heading(self, sheet, heads, key):
        """The unit that the heading of a column has in brackets, or None."""
        column = heads.columns.get(key)
        return self.taken(Cell(Place(sheet.name, heads.row, column.number), column.heading), headings.unit_in) if column else None

    def read_table_row(self, cells, units, last):
        """Reads a row of a table, and gives its material; one without a code belongs to the last material."""
        def unit(key):
            return self.taken(cells[f"{key} unit"], amounts.unit_of) if cells[f"{key} unit"].text else units[key]

        code = cells["material"]
        if not code.text and last is None:
            self.fault(code, "it has no material", "fill in the code of its material")
            return None
        if not code.text:
            material = last
            self.notes.append(f"row {code.place.row} has no material and is taken for one of {last.code.text}, as the rows above")
        elif code.text in self.materials:
            material = self.materials[code.text]
            if cells["mass"].text and cells["mass"].text != material.mass.text:
                self.fault(cells["mass"], f"row {material.mass.place.row} has another mass of {code.text}", "give a material one mass")
        else:
            material = self.add_material(code, cells["name"], cells["mass"], unit("mass"))
        if cells["substance"].text:
            self.add_substance(material, cells["substance"], cells["amount"], unit("amount"))
        elif cells["amount"].text:
            self.fault(cells["substance"], "an amount has no substance", "fill in the substance, or take the amount off")
        if cells["exemption"].text:
            self.add_claim(material, cells["rule"] if cells["rule"].text else cells["substance"], cells["exemption"])
        return material

    # ---- both layouts

    def fault(self, cell, what, remedy):
        self.faults.append(Fault(cell.place, cell.text, what, remedy))

    def taken(self, cell, read):
        """What a reader makes of a cell, or None where it can't take it, which is a fault."""
        try:
            return read(cell.text)
        except Wrong as wrong:
            self.faults.append(wrong.at(cell.place, cell.text))
            return None

    def tell(self, cell, what):
        self.notes.append(f'{cell.place.inside()} "{cell.text}" {what}')

    def sign_in(self, texts):
        """The decimal sign of the sheet: as the user says, or as its numbers show it, which is told."""
        if self.options.decimal:
            return self.options.decimal
        sign, shown = amounts.sign_of_all(number for text in texts if (number := amounts.number_in(text)))
        if sign:
            self.notes.append(f"its numbers have a decimal {sign.title}, as `{shown}` shows")
        return sign

    def add_material(self, code, name, mass, unit):
        """Adds a material with the cells that it has."""
        material = GivenMaterial(code, name, mass, unit)
        self.taken(code, forms.code_of)
        if code.text in self.materials:
            self.fault(code, f"row {self.materials[code.text].code.place.row} has this material already", "leave one of the two")
        else:
            self.materials[code.text] = material
        return material

    def add_substance(self, material, name, amount, unit):
        substance = GivenSubstance(name, amount, unit, self.taken(name, self.substance_of))
        if substance.code in [other.code for other in material.substances] and substance.code:
            self.fault(name, f"{material.code.text} has {substance.code} already", "add the amounts up")
        if substance.code and substance.code != name.text:
            self.tell(name, f"is taken for {substance.code}")
        material.substances.append(substance)

    def substance_of(self, text):
        """The code of a substance. Raises `Wrong`."""
        rule = SUBSTANCE_WORDS.get(text.lower())
        if rule:
            return rule.value
        if not forms.CODE.fullmatch(text) or text[:1].isdigit():
            raise Wrong(
                "it is none of the ten restricted substances by name, symbol or CAS number",
                f"write one of {', '.join(rule.value for rule in Rule)}, or the code that your customer gave you for a compound",
            )
        self.notes.append(f"`{text}` is none of the ten restricted substances, so the desk has to keep it by this code")
        return text

    def add_claim(self, material, rule, number):
        found, taken = SUBSTANCE_WORDS.get(rule.text.lower()), self.taken(number, forms.number_of_exemption)
        if found is None and rule.place in [fault.place for fault in self.faults]:
            return  # The cell is named already.
        if found is None:
            self.fault(rule, "it isn't said which restricted substance the exemption is for", "write one of the ten, such as lead")
        elif (found, taken) in material.claims:
            self.fault(number, f"{material.code.text} claims it already", "leave one of the two")
        elif taken:
            material.claims.append((found, taken))

    # ---- the declaration

    def declaration(self):
        """The declaration of what was read; where there are mistakes, parts of it are missing."""
        head = {key: self.head_cell(key) for key in self.head}
        readers = {"supplier": forms.code_of, "number": _number_of, "day": amounts.day_of}
        supplier, number, day = (self.taken(head[key], read) if head[key] else None for key, read in readers.items())
        if day and day.isoformat() != head["day"].text:
            self.tell(head["day"], f"is read as {day}")
        if not self.materials and not self.faults:
            self.faults.append(Fault(Place(self.name), None, "it has no material", "list at least one"))
        return Declaration(supplier, number, day, [self.material_of(material) for material in self.materials.values()])

    def head_cell(self, key):
        """What the sheet says of the supplier, the number or the day, or what the user says in its place."""
        cell, said = self.head[key], getattr(self.options, key)
        if cell is None or not cell.text:
            place = cell.place if cell else Place(self.name, None, None, key)
            if said is None:
                self.faults.append(Fault(place, None, f"it isn't said what the {key} is", f"write it into the sheet, or say --{key}"))
                return None
            return Cell(place, said)
        if said is not None and said != cell.text:
            self.fault(cell, f"--{key} says {said}", "say one of the two")
        return cell

    def material_of(self, given):
        """A material of the declaration, with its masses in whole micrograms."""
        name = given.name.text
        if not name:
            name = given.code.text
            self.notes.append(f"{given.code.place.inside()} \"{name}\" has no name, and its code is taken for one")
        self.taken(Cell(given.name.place, name), forms.name_of)
        exact = self.mass_of(given)
        mass = amounts.rounded_down(exact) if exact is not None else None
        if mass is not None and not 1 <= mass <= declared.MOST_MASS:
            self.fault(given.mass, f"it comes to {mass} micrograms", f"a mass is from 1 to {declared.MOST_MASS} micrograms")
        masses = {}
        for substance in given.substances:
            masses[substance.code] = self.substance_mass(substance, exact)
        if mass and None not in masses.values() and sum(masses.values()) > mass:
            self.fault(given.code, f"its substances weigh {sum(masses.values())} micrograms, and it {mass}", "look at the units")
        return Material(given.code.text, name, mass, masses, given.claims)

    def mass_of(self, given):
        """The exact mass of a material in micrograms, or None where it isn't known, which is a fault."""
        if not given.mass.text:
            if self.options.has_portions:
                self.notes.append(f"{given.code.text} has no mass and is declared as a portion of one gram")
                return fractions.Fraction(PORTION)
            remedy = "fill it in, or say --portion where only ppm are known, to declare a portion of one gram"
            self.fault(given.mass, f"{given.code.text} has no mass", remedy)
            return None
        amount = self.amount_of(given.mass, given.mass_unit)
        if amount is None:
            return None
        if amount.unit.micrograms is None or amount.is_bound:
            self.fault(given.mass, "it is no mass", "write the mass of the material in kg, g, mg or ug")
            return None
        return self.told_mass(given.mass, amount.micrograms(), amounts.rounded_down, amount)

    def substance_mass(self, given, whole):
        """The mass of a substance in whole micrograms, rounded up, or None where there is a fault."""
        amount = self.amount_of(given.amount, given.unit)
        if amount is None or amount.unit.micrograms is None and whole is None:
            return None
        exact = amount.micrograms(whole)
        self.told_mass(given.amount, exact, amounts.rounded_up, amount)
        return amounts.rounded_up(exact)

    def amount_of(self, cell, unit):
        """The amount in a cell; nothing at all needs no unit."""
        if cell.text == "0" and unit is None:
            unit = Unit.MICROGRAM
        return self.taken(cell, lambda text: amounts.amount_of(text, self.sign, unit))

    def told_mass(self, cell, exact, rounded, amount):
        """Tells what a mass comes to, unless it stands so in its cell."""
        whole = rounded(exact)
        if str(whole) != cell.text or amount.unit is not Unit.MICROGRAM:
            bound = "less than that, and taken as " if amount.is_bound else ""
            way = "" if exact == whole else f", rounded {'up' if whole > exact else 'down'} from {figures.rounded(exact, 6)}"
            self.tell(cell, f"in {amount.unit.value} is {bound}{whole} ug{way}")
        return exact


def _number_of(text):
    if not text.isdecimal() or not 1 <= int(text) <= declared.MOST_NUMBER or text[0] == "0":
        raise Wrong("it is no number of a declaration", "write a whole number from 1 on, greater than that of the supplier's declaration before")
    return int(text)
