"""The tables of a desk as its export lists them. They tell what no question is answered on: claims, days of declarations, exemptions."""
import dataclasses
import datetime
import enum
import pathlib
import subprocess

from client.answers import PartKind
from client.law import Kind, Rule


class UnreadableExport(Exception):
    """A line isn't one of an export."""


class Table(enum.Enum):
    """A table by the number that begins its lines."""

    SUBSTANCES = "1"
    MEMBERS = "2"
    MATERIALS = "3"
    PARTS = "4"
    LINES = "5"
    PRODUCTS = "6"
    EXEMPTIONS = "7"
    CANDIDATES = "8"
    SHIPMENTS = "9"
    TICKETS = "10"


@dataclasses.dataclass(frozen=True)
class Claim:
    """A claim of an exemption, as the supplier wrote its number."""

    rule: Rule
    number: str


@dataclasses.dataclass(frozen=True)
class KeptMaterial:
    """A material as it is kept: masses in micrograms."""

    code: str
    supplier: str
    declaration: int
    day: datetime.date
    name: str
    mass: int
    substances: dict[str, int]
    claims: tuple[Claim, ...]


@dataclasses.dataclass(frozen=True)
class KeptPart:
    """A part as it is kept."""

    code: str
    kind: PartKind
    name: str


@dataclasses.dataclass(frozen=True)
class KeptExemption:
    """An exemption row as it is kept: floor and cap in ppm, or None."""

    row: str
    number: str
    rule: Rule
    kinds: frozenset[Kind]
    first: datetime.date
    last: datetime.date
    floor: int | None
    cap: int | None


@dataclasses.dataclass(frozen=True)
class KeptShipments:
    """The units of a product that were shipped in a year."""

    year: int
    product: str
    units: int


@dataclasses.dataclass
class Kept:
    """The tables that the readings use, by codes. `version` is how many edits they have accepted."""

    version: int = 0
    substances: dict[str, str] = dataclasses.field(default_factory=dict)
    materials: dict[str, KeptMaterial] = dataclasses.field(default_factory=dict)
    parts: dict[str, KeptPart] = dataclasses.field(default_factory=dict)
    exemptions: dict[str, KeptExemption] = dataclasses.field(default_factory=dict)
    # The days from which candidates are on the list, by substance.
    candidates: dict[str, datetime.date] = dataclasses.field(default_factory=dict)
    shipments: list[KeptShipments] = dataclasses.field(default_factory=list)

    def rows_for(self, claim):
        """The exemption rows with the number and the rule of a claim."""
        return [row for row in self.exemptions.values() if (row.rule, row.number) == (claim.rule, claim.number)]

    def unmatched_claims(self, material):
        """The claims of a material that match no row: `6c` where the row has `6(c)`. None of them covers anything."""
        found = self.materials.get(material)
        return [claim for claim in (found.claims if found else ()) if not self.rows_for(claim)]

    def like(self, claim):
        """The numbers of rows of the claim's rule that differ from the claim's in brackets, blanks and signs alone."""
        return sorted({row.number for row in self.exemptions.values() if row.rule is claim.rule and _bare(row.number) == _bare(claim.number)})


def _bare(number):
    return "".join(letter for letter in number.lower() if letter.isalnum())


def _material(code, fields):
    supplier, number, day, name, mass, *rest = fields
    count, rest = int(rest[0]), rest[1:]
    substances = {rest[place]: int(rest[place + 1]) for place in range(0, 2 * count, 2)}
    claims = rest[2 * count + 1:]
    pairs = tuple(Claim(Rule(claims[place]), claims[place + 1]) for place in range(0, len(claims), 2))
    return KeptMaterial(code, supplier, int(number), datetime.date.fromisoformat(day), name, int(mass), substances, pairs)


def _exemption(code, fields):
    _, number, rule, kinds, first, last, floor, cap, _ = fields
    return KeptExemption(
        code, number, Rule(rule), frozenset(map(Kind, kinds.split(","))), datetime.date.fromisoformat(first),
        datetime.date.fromisoformat(last), int(floor) if floor else None, int(cap) if cap else None,
    )


def read_export(data):
    """The tables that the bytes of an export hold. Raises `UnreadableExport`."""
    kept = Kept()
    for number, line in enumerate(data.decode(errors="surrogateescape").split("\n")[:-1], 1):
        try:
            kind, code, _, *fields = line.split("\t")
            table = Table(kind)
            if table is Table.SUBSTANCES:
                kept.substances[code] = fields[0]
            elif table is Table.MATERIALS:
                kept.materials[code] = _material(code, fields)
            elif table is Table.PARTS:
                kept.parts[code] = KeptPart(code, PartKind(fields[0]), fields[1])
            elif table is Table.EXEMPTIONS:
                kept.exemptions[code] = _exemption(code, fields)
            elif table is Table.CANDIDATES:
                kept.candidates[code] = datetime.date.fromisoformat(fields[0])
            elif table is Table.SHIPMENTS:
                year, _, product = code.partition("/")
                kept.shipments.append(KeptShipments(int(year), product, int(fields[0])))
            elif table is Table.TICKETS:
                kept.version += 1
        except (ValueError, IndexError) as fault:
            raise UnreadableExport(f"line {number} isn't one of an export: {line[:80]}") from fault
    return kept


def export_of(store, program):
    """The tables of the store of this name, which no desk may have open meanwhile. Raises `UnreadableExport`."""
    if not pathlib.Path(store).exists():
        return Kept()
    ran = subprocess.run([str(program), "export", "--store", str(store)], stdout=subprocess.PIPE)
    if ran.returncode:
        told = ran.stdout.decode(errors="replace").splitlines()
        line = told[-1] if told else "nothing"
        cause = "; another desk may have the store, and then give the port of that one" if line == "desk: store" else ""
        raise UnreadableExport(f"`{program} export --store {store}` says `{line}`{cause}")
    return read_export(ran.stdout)
