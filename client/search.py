"""Searches a desk by part, material and substance, as far as its answers and an export tell what there is."""
import dataclasses
import enum

from client.answers import PartKind
from client.desk import NoSuchCode


class Sort(enum.Enum):
    """What was found."""

    PRODUCT = "product"
    PART = "part"
    MATERIAL = "material"


@dataclasses.dataclass(frozen=True, order=True)
class Hit:
    """A code that fits, its name where one is known, and why it fits where that isn't its code or name."""

    code: str
    sort: Sort = dataclasses.field(compare=False)
    name: str = dataclasses.field(compare=False, default="")
    why: str = dataclasses.field(compare=False, default="")


@dataclasses.dataclass(frozen=True)
class Result:
    """What a search found, and in what it looked."""

    hits: tuple[Hit, ...]
    looked_in: str


def search(looker, text, day):
    """What fits a text: a part of a code, of a name or of a substance, in small or capital letters."""
    wanted = text.strip().lower()
    hits = {}
    if not wanted:
        return Result((), "Nothing was looked for.")
    found = _in_tables(looker.kept, wanted) if looker.kept else _in_products(looker, wanted, day)
    for hit in found:
        hits.setdefault(hit.code, hit)
    if text.strip() not in hits:
        hits.update({hit.code: hit for hit in _by_code(looker, text.strip())})
    where = "all tables of the desk" if looker.kept else (
        "what the products hold, and the substances that they are over a limit of or carry a duty for; "
        "what no product holds is found by its whole code alone, as no question lists it"
    )
    return Result(tuple(sorted(hits.values())), f"Looked in {where}.")


def _by_code(looker, code):
    """The part or the material whose whole code it is."""
    try:
        part = looker.part(code)
        if part is not None:
            yield Hit(code, Sort.PRODUCT if part.product_kind else Sort.PART, part.name)
        else:
            looker.desk.uses(code)
            yield Hit(code, Sort.MATERIAL)
    except NoSuchCode:
        return


def _fits(wanted, *texts):
    return any(wanted in text.lower() for text in texts)


def _in_tables(kept, wanted):
    """What fits in exported tables."""
    for part in kept.parts.values():
        if _fits(wanted, part.code, part.name):
            yield Hit(part.code, Sort.PART, part.name)
    for material in kept.materials.values():
        held = [code for code in material.substances if _fits(wanted, code, kept.substances.get(code, ""))]
        if _fits(wanted, material.code, material.name):
            yield Hit(material.code, Sort.MATERIAL, material.name)
        elif held:
            yield Hit(material.code, Sort.MATERIAL, material.name, f"holds {', '.join(held)}")


def _in_products(looker, wanted, day):
    """What fits below the products, by the desk's answers."""
    waiting, seen = [], set()
    for product in looker.desk.summary(day).products:
        waiting.append(product.code)
        for finding in looker.desk.rohs(product.code, day).findings:
            if _fits(wanted, finding.rule.value):
                yield Hit(finding.material, Sort.MATERIAL, "", f"is over the limit of {finding.rule.value}")
        for duty in looker.desk.article33(product.code, day).duties:
            if _fits(wanted, duty.substance, duty.name):
                yield Hit(duty.article, Sort.PART, looker.part(duty.article).name, f"has a duty for {duty.substance}")
    while waiting:
        code = waiting.pop()
        if code in seen:
            continue
        seen.add(code)
        part = looker.part(code)
        if _fits(wanted, code, part.name):
            yield Hit(code, Sort.PRODUCT if part.product_kind else Sort.PART, part.name)
        for line in part.lines:
            if part.kind is PartKind.ASSEMBLY:
                waiting.append(line.child)
            elif _fits(wanted, line.child):
                yield Hit(line.child, Sort.MATERIAL)
