"""The edits that a table with headings can be, with the columns of each, and the form of each value."""
import dataclasses
import enum
import re

from client import amounts
from client.law import Kind, Rule
from client.places import Wrong


class Word(enum.Enum):
    """An edit by its word."""

    SUBSTANCE = "substance"
    MEMBER = "member"
    PART = "part"
    LINE = "line"
    UNLINE = "unline"
    PRODUCT = "product"
    EXEMPTION = "exemption"
    UNEXEMPT = "unexempt"
    CANDIDATE = "candidate"
    SHIP = "ship"
    UNSHIP = "unship"


class Form(enum.Enum):
    """The form of a value."""

    CODE = "code"
    NAME = "name"
    CAS = "CAS number"
    NUMBER_OF_EXEMPTION = "number of an exemption"
    PART_KIND = "article or assembly"
    RULE = "rule"
    KIND = "kind of equipment"
    KINDS = "kinds of equipment"
    DAY = "day"
    WHOLE = "whole number"


@dataclasses.dataclass(frozen=True)
class Field:
    """A value of an edit: its key, its form, what ERPs and people write above such a column, and the range of a whole number."""

    key: str
    form: Form
    headings: tuple[str, ...]
    least: int = 0
    most: int = 0
    is_optional: bool = False


@dataclasses.dataclass(frozen=True)
class Table:
    """A sort of table: the edit that each of its rows is, and its columns."""

    word: Word
    title: str
    fields: tuple[Field, ...]


PART_HEADINGS = ("part", "part number", "part no", "item", "item number", "material number", "article number", "component code")
SUBSTANCE_HEADINGS = ("substance", "substance code")
# Columns that a table of any sort may have: a ticket of the sender's own. They are no key of the edit.
TICKET = Field("ticket", Form.CODE, ("ticket",), is_optional=True)
# Tells two shipments of the same units apart, such as the number of a delivery note. It is no key of the edit.
REFERENCE = Field("reference", Form.NAME, ("reference", "delivery note", "document", "document number", "order"), is_optional=True)

TABLES = (
    Table(Word.PART, "parts", (
        Field("code", Form.CODE, ("code", *PART_HEADINGS)),
        Field("kind", Form.PART_KIND, ("kind", "type", "part type", "item type")),
        Field("name", Form.NAME, ("name", "description", "part name", "text")),
    )),
    Table(Word.LINE, "lines", (
        Field("parent", Form.CODE, ("parent", "assembly", "parent item", "parent part", "header", "used in")),
        Field("child", Form.CODE, ("child", "component", "child item", "child part", *PART_HEADINGS)),
        Field("count", Form.WHOLE, ("count", "quantity", "qty", "amount", "pieces"), 1, 10**6),
    )),
    Table(Word.PRODUCT, "products", (
        Field("part", Form.CODE, ("product", "code", *PART_HEADINGS)),
        Field("kind", Form.KIND, ("kind", "category", "equipment", "kind of equipment", "rohs category", "annex i category")),
    )),
    Table(Word.SHIP, "shipments", (
        Field("product", Form.CODE, ("product", "code", *PART_HEADINGS)),
        Field("year", Form.WHOLE, ("year", "fiscal year", "calendar year"), 2008, 2099),
        Field("units", Form.WHOLE, ("units", "quantity", "qty", "pieces", "shipped"), 1, 10**12),
        REFERENCE,
    )),
    Table(Word.SUBSTANCE, "substances", (
        Field("code", Form.CODE, SUBSTANCE_HEADINGS),
        Field("name", Form.NAME, ("name", "substance name")),
        Field("cas", Form.CAS, ("cas", "cas number", "cas no"), is_optional=True),
    )),
    Table(Word.MEMBER, "members of rules", (
        Field("substance", Form.CODE, SUBSTANCE_HEADINGS),
        Field("rule", Form.RULE, ("rule", "counts for")),
        Field("factor", Form.WHOLE, ("factor", "factor in millionths"), 0, 10**6),
    )),
    Table(Word.CANDIDATE, "candidates", (
        Field("substance", Form.CODE, SUBSTANCE_HEADINGS),
        Field("day", Form.DAY, ("day", "included", "date", "date of inclusion", "day of inclusion")),
    )),
    Table(Word.EXEMPTION, "exemptions", (
        Field("row", Form.CODE, ("row", "code")),
        Field("annex", Form.WHOLE, ("annex",), 3, 4),
        Field("number", Form.NUMBER_OF_EXEMPTION, ("number", "exemption")),
        Field("rule", Form.RULE, ("rule", "restricted substance")),
        Field("kinds", Form.KINDS, ("kinds", "categories")),
        Field("application", Form.NAME, ("application", "text", "name")),
        Field("from", Form.DAY, ("from", "first day", "valid from")),
        Field("until", Form.DAY, ("until", "last day", "valid until", "expires")),
        Field("floor", Form.WHOLE, ("floor", "floor in ppm", "least ppm"), 0, 10**6, True),
        Field("cap", Form.WHOLE, ("cap", "cap in ppm", "most ppm"), 0, 10**6, True),
    )),
)

CODE = re.compile(r"[A-Za-z0-9._-]{1,40}")
NUMBER_OF_EXEMPTION = re.compile(r"[A-Za-z0-9._()-]{1,20}")


def code_of(text):
    """The code that a text is. Raises `Wrong`."""
    if not CODE.fullmatch(text):
        raise Wrong("it isn't a code", "write 1 to 40 of the letters A-Z and a-z, digits, `.`, `_` and `-`, without blanks")
    return text


def name_of(text):
    """The name that a text is. Raises `Wrong`."""
    if not 1 <= len(text.encode(errors="surrogatepass")) <= 200 or any(letter < " " or "\x7f" <= letter <= "\x9f" for letter in text):
        raise Wrong("it isn't a name", "write 1 to 200 bytes on one line, without tabs")
    return text


def number_of_exemption(text):
    """The number of an exemption that a text is. Raises `Wrong`."""
    if not NUMBER_OF_EXEMPTION.fullmatch(text):
        raise Wrong("it isn't the number of an exemption", "write it as the annex has it, without blanks, such as 6(c)")
    return text


def cas_of(text):
    """The CAS number that a text is. Raises `Wrong`."""
    found = re.fullmatch(r"(\d{2,7})-(\d\d)-(\d)", text)
    digits = [int(digit) for digit in reversed(found[1] + found[2])] if found else []
    if not found or sum(place * digit for place, digit in enumerate(digits, 1)) % 10 != int(found[3]):
        raise Wrong("it isn't a CAS number, or its check digit is another", "copy it again, such as 7439-92-1")
    return text


def rule_of(text):
    """The code of a rule that a text is. Raises `Wrong`."""
    try:
        return Rule(text).value
    except ValueError:
        raise Wrong("it is none of the ten rules", f"write one of {', '.join(rule.value for rule in Rule)}") from None


def kind_of(text):
    """The code of a kind of equipment that a text is. Raises `Wrong`."""
    try:
        return Kind(text).value
    except ValueError:
        raise Wrong("it is no kind of equipment", f"write one of {', '.join(kind.value for kind in Kind)}") from None


def kinds_of(text):
    """The codes of kinds that a text lists, between blanks, commas or semicolons. Raises `Wrong`."""
    kinds = [kind_of(word) for word in re.split(r"[\s,;]+", text.strip(" ,;"))]
    if len(set(kinds)) != len(kinds):
        raise Wrong("it names a kind twice", "name each once")
    return kinds


def part_kind_of(text):
    """`article` or `assembly`. Raises `Wrong`."""
    if text.lower() not in ("article", "assembly"):
        raise Wrong(
            "it is neither article nor assembly",
            f"write article (it is made of materials) or assembly (of parts), or say what it stands for by --value \"{text}=article\"",
        )
    return text.lower()


def whole_in(text, field, sign):
    """The whole number of a field that a text is. Raises `Wrong`."""
    number = amounts.whole_of(text, sign)
    if not field.least <= number <= field.most:
        raise Wrong(f"it isn't from {field.least} to {field.most}", "write a number in this range")
    return number


_READERS = {
    Form.CODE: code_of,
    Form.NAME: name_of,
    Form.CAS: cas_of,
    Form.NUMBER_OF_EXEMPTION: number_of_exemption,
    Form.PART_KIND: part_kind_of,
    Form.RULE: rule_of,
    Form.KIND: kind_of,
    Form.KINDS: kinds_of,
    Form.DAY: lambda text: amounts.day_of(text).isoformat(),
}


def value_of(field, text, sign=None):
    """The value of a field as an edit has it: a text, a number or a list of kinds. `sign` is the decimal sign. Raises `Wrong`."""
    return whole_in(text, field, sign) if field.form is Form.WHOLE else _READERS[field.form](text)
