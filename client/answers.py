"""The desk's answers as objects. Each keeps the answer as it came, in `body`; what is read of it stands beside that.

Masses and tonnages are in micrograms, shares and limits in millionths of a microgram, days are `datetime.date`.
"""
import dataclasses
import datetime
import enum
import fractions
import re

from client.law import Kind, Rule


class UnreadableAnswer(Exception):
    """An answer has a line that isn't of the form that is expected there."""


class Verdict(enum.Enum):
    """What an answer says of a material and a rule."""

    WITHIN = "within"
    NOT_IN_FORCE = "not-in-force"
    EXEMPT = "exempt"
    BREACH = "breach"


class PartKind(enum.Enum):
    """What a part is made of: an article of materials, an assembly of parts."""

    ARTICLE = "article"
    ASSEMBLY = "assembly"


@dataclasses.dataclass(frozen=True)
class Answer:
    """Any answer: its bytes as they came, and after how many edits it was given."""

    body: bytes
    version: int

    @property
    def text(self):
        return self.body.decode()


@dataclasses.dataclass(frozen=True)
class Finding:
    """A material and a rule: the share, the limit, and the verdict with what goes with it."""

    material: str
    rule: Rule
    share: int
    limit: int
    verdict: Verdict
    number: str | None = None
    row: str | None = None
    chain: tuple[str, ...] = ()

    @property
    def ppm(self):
        """How much of the material the rule counts, in ppm, exactly."""
        # The limit is the rule's ppm times the material's mass.
        return fractions.Fraction(self.share * self.rule.limit, self.limit)


@dataclasses.dataclass(frozen=True)
class MaterialAnswer(Answer):
    """A material for a kind and a day: of which declaration it is, its mass, and a finding for each of the ten rules."""

    code: str
    supplier: str
    declaration: int
    mass: int
    findings: tuple[Finding, ...]
    is_compliant: bool


@dataclasses.dataclass(frozen=True)
class RohsAnswer(Answer):
    """A product's compliance on a day, with a finding for each material and rule over whose limit it is."""

    code: str
    kind: Kind
    day: datetime.date
    mass: int
    findings: tuple[Finding, ...]
    is_compliant: bool


@dataclasses.dataclass(frozen=True)
class Duty:
    """A duty to inform: the article holds `mass` of the candidate, of `of` that it weighs."""

    article: str
    substance: str
    mass: int
    of: int
    included: datetime.date
    name: str
    chain: tuple[str, ...]


@dataclasses.dataclass(frozen=True)
class DutiesAnswer(Answer):
    """A part's duties to inform on a day."""

    code: str
    day: datetime.date
    duties: tuple[Duty, ...]


@dataclasses.dataclass(frozen=True)
class Notice:
    """A substance that is to be notified; `due` is None where the day is past 2099."""

    substance: str
    tonnage: int
    included: datetime.date
    due: datetime.date | None


@dataclasses.dataclass(frozen=True)
class NoticesAnswer(Answer):
    """What is to be notified of a year's shipments on a day."""

    year: int
    day: datetime.date
    notices: tuple[Notice, ...]


@dataclasses.dataclass(frozen=True)
class Line:
    """How many of a child a part holds."""

    child: str
    count: int


@dataclasses.dataclass(frozen=True)
class Carried:
    """A candidate and how much of it a part carries."""

    substance: str
    mass: int


@dataclasses.dataclass(frozen=True)
class PartAnswer(Answer):
    """A part: its lines, the candidates that it carries, and its kind of equipment where it is a product."""

    code: str
    kind: PartKind
    mass: int
    name: str
    product_kind: Kind | None
    lines: tuple[Line, ...]
    carried: tuple[Carried, ...]


@dataclasses.dataclass(frozen=True)
class User:
    """A part with a line to what was asked about."""

    parent: str
    count: int


@dataclasses.dataclass(frozen=True)
class ProductOfKind:
    """A product and its kind of equipment."""

    code: str
    kind: Kind


@dataclasses.dataclass(frozen=True)
class UsesAnswer(Answer):
    """Where a material or a part is used."""

    code: str
    users: tuple[User, ...]
    products: tuple[ProductOfKind, ...]


@dataclasses.dataclass(frozen=True)
class ProductVerdict:
    """A product in a summary."""

    code: str
    kind: Kind
    is_compliant: bool
    breaches: int
    duties: int


@dataclasses.dataclass(frozen=True)
class SummaryAnswer(Answer):
    """The whole desk on a day: how many rows each table has, and the products."""

    day: datetime.date
    rows: dict[str, int]
    products: tuple[ProductVerdict, ...]


class _Reader:
    """The lines of an answer, taken one after another by their forms."""

    def __init__(self, body):
        self.body = body
        try:
            text = body.decode()
        except UnicodeDecodeError as fault:
            raise UnreadableAnswer(f"the answer isn't UTF-8: {fault}") from fault
        self.lines = text.removesuffix("\n").split("\n")
        self.place = 0
        self.version = int(self.take(r"version (\d+)")[0])

    def take(self, form):
        """The groups of the next line, which has to be of this form."""
        groups = self.take_if(form)
        if groups is None:
            found = repr(self.lines[self.place]) if self.place < len(self.lines) else "the end"
            raise UnreadableAnswer(f"line {self.place + 1} of the answer is {found}, in place of one of the form `{form}`")
        return groups

    def take_if(self, form):
        """The groups of the next line where it is of this form, else None, and then the line stays the next."""
        found = re.fullmatch(form, self.lines[self.place]) if self.place < len(self.lines) else None
        if found is None:
            return None
        self.place += 1
        return found.groups()

    def each(self, form):
        """The groups of all next lines of this form."""
        while (groups := self.take_if(form)) is not None:
            yield groups

    def end(self):
        if self.place < len(self.lines):
            raise UnreadableAnswer(f"line {self.place + 1} of the answer is one too many: {self.lines[self.place]!r}")


_FINDING = r"share (\d+) limit (\d+) (within|not-in-force|breach|exempt)(?: (\S+) row (\S+))?"
_LAST = r"(compliant|not-compliant)"


def _finding(material, groups, chain=()):
    rule, share, limit, verdict, number, row = groups
    return Finding(material, Rule(rule), int(share), int(limit), Verdict(verdict), number, row, chain)


def _day(text):
    return datetime.date.fromisoformat(text)


def version_in(body):
    """The number of `version N`, the first line of any answer."""
    return _Reader(body).version


def version_of(body):
    """The number of `version N`, the one line of an answer."""
    reader = _Reader(body)
    reader.end()
    return reader.version


def material_of(body):
    """Reads the answer on a material."""
    reader = _Reader(body)
    code, supplier, number, mass = reader.take(r"material (\S+) supplier (\S+) declaration (\d+) mass (\d+)")
    findings = tuple(_finding(code, groups) for groups in reader.each(rf"rule (\S+) {_FINDING}"))
    last = reader.take(_LAST)[0]
    reader.end()
    return MaterialAnswer(body, reader.version, code, supplier, int(number), int(mass), findings, last == "compliant")


def rohs_of(body):
    """Reads the answer on a product's compliance."""
    reader = _Reader(body)
    code, kind, day, mass = reader.take(r"product (\S+) kind (\S+) day (\S+) mass (\d+)")
    findings = []
    for material, *groups in reader.each(rf"over (\S+) (\S+) {_FINDING}"):
        chain = tuple(reader.take(r"chain (.+)")[0].split(" ")) if groups[3] == Verdict.BREACH.value else ()
        findings.append(_finding(material, groups, chain))
    last = reader.take(_LAST)[0]
    reader.end()
    return RohsAnswer(body, reader.version, code, Kind(kind), _day(day), int(mass), tuple(findings), last == "compliant")


def duties_of(body):
    """Reads the answer on a part's duties to inform."""
    reader = _Reader(body)
    code, day = reader.take(r"part (\S+) day (\S+)")
    duties = []
    for article, substance, mass, of, included in reader.each(r"duty (\S+) (\S+) mass (\d+) of (\d+) included (\S+)"):
        name = reader.take(r"name (.+)")[0]
        chain = tuple(reader.take(r"chain (.+)")[0].split(" "))
        duties.append(Duty(article, substance, int(mass), int(of), _day(included), name, chain))
    reader.take(rf"duties {len(duties)}")
    reader.end()
    return DutiesAnswer(body, reader.version, code, _day(day), tuple(duties))


def notices_of(body):
    """Reads the answer on a year's notifications."""
    reader = _Reader(body)
    year, day = reader.take(r"year (\d+) day (\S+)")
    notices = tuple(
        Notice(substance, int(tonnage), _day(included), None if due == "none" else _day(due))
        for substance, tonnage, included, due in reader.each(r"notice (\S+) tonnage (\d+) included (\S+) due (\S+)")
    )
    reader.take(rf"notices {len(notices)}")
    reader.end()
    return NoticesAnswer(body, reader.version, int(year), _day(day), notices)


def part_of(body):
    """Reads the answer on a part."""
    reader = _Reader(body)
    code, kind, mass = reader.take(r"part (\S+) (article|assembly) mass (\d+)")
    name = reader.take(r"name (.+)")[0]
    product = reader.take_if(r"product kind (\S+)")
    lines = tuple(Line(child, int(count)) for child, count in reader.each(r"line (\S+) (\d+)"))
    carried = tuple(Carried(substance, int(of)) for substance, of in reader.each(r"carried (\S+) (\d+)"))
    reader.end()
    product_kind = Kind(product[0]) if product else None
    return PartAnswer(body, reader.version, code, PartKind(kind), int(mass), name, product_kind, lines, carried)


def uses_of(body):
    """Reads the answer on where a code is used."""
    reader = _Reader(body)
    code = reader.take(r"uses (\S+)")[0]
    users = tuple(User(parent, int(count)) for parent, count in reader.each(r"user (\S+) (\d+)"))
    products = tuple(ProductOfKind(product, Kind(kind)) for product, kind in reader.each(r"product (\S+) kind (\S+)"))
    reader.end()
    return UsesAnswer(body, reader.version, code, users, products)


def summary_of(body):
    """Reads the summary of the whole desk."""
    reader = _Reader(body)
    day = reader.take(r"day (\S+)")[0]
    rows = {table: int(number) for table, number in reader.each(r"([a-z]+) (\d+)")}
    form = r"product (\S+) kind (\S+) (compliant|not-compliant) breaches (\d+) duties (\d+)"
    products = tuple(
        ProductVerdict(code, Kind(kind), word == "compliant", int(breaches), int(duties))
        for code, kind, word, breaches, duties in reader.each(form)
    )
    reader.end()
    return SummaryAnswer(body, reader.version, _day(day), rows, products)
