"""Looks for what is missing below a product before its answer may be signed."""
import dataclasses
import datetime
import enum

from client import figures
from client.answers import PartKind
from client.kept import UnreadableExport


class GapKind(enum.Enum):
    """What is missing, in words."""

    UNKNOWN = "the desk keeps no such part"
    NO_KIND = "it is no product: no kind of equipment is entered for it"
    NO_MATERIALS = "an article without materials"
    NO_LINES = "an assembly without lines"
    OLD_DECLARATION = "a material that was declared long ago"
    UNMATCHED_CLAIM = "a claim that matches no exemption row, so that it covers nothing"


@dataclasses.dataclass(frozen=True)
class Gap:
    """Something that is missing: of which code, by which chain it is reached first, and what is known of it."""

    kind: GapKind
    chain: tuple[str, ...]
    told: str = ""

    def lines(self):
        told = f" ({self.told})" if self.told else ""
        yield f"missing  {self.chain[-1]}: {self.kind.value}{told}"
        if len(self.chain) > 1:
            yield f"         in {' > '.join(self.chain)}"


@dataclasses.dataclass
class Found:
    """What a look below a product found: the gaps, the parts and materials that were looked at, and what couldn't be looked for."""

    code: str
    version: int
    gaps: list[Gap] = dataclasses.field(default_factory=list)
    parts: list[str] = dataclasses.field(default_factory=list)
    # Each material with the chain by which it was reached first.
    materials: dict[str, tuple[str, ...]] = dataclasses.field(default_factory=dict)
    not_looked_for: list[str] = dataclasses.field(default_factory=list)
    # Whether the desk was changed while it was looked at.
    is_torn: bool = False

    @property
    def is_whole(self):
        """Whether nothing is missing, as far as it was looked for, at one version of the tables."""
        return not self.gaps and not self.is_torn

    def lines(self):
        """What is told of it."""
        parts, materials = figures.counted(len(self.parts), "part"), figures.counted(len(self.materials), "material")
        yield f"{self.code}: {parts} and {materials} looked at (after {figures.counted(self.version, 'edit')})"
        for gap in self.gaps:
            yield from gap.lines()
        yield from (f"not looked for: {it}" for it in self.not_looked_for)
        if self.is_torn:
            yield "the desk was changed meanwhile: look again"
        yield figures.counted(len(self.gaps), "gap") if self.gaps else "no gap"


def look(looker, code, older_than: datetime.date | None = None):
    """Walks the desk's answers on the parts below a code, each once."""
    top = looker.part(code)
    found = Found(code, looker.desk.told)
    if top is None:
        found.gaps.append(Gap(GapKind.UNKNOWN, (code,)))
        return found
    if top.product_kind is None:
        found.gaps.append(Gap(GapKind.NO_KIND, (code,)))
    waiting, seen = [(code,)], {code}
    while waiting:
        chain = waiting.pop(0)
        part = looker.part(chain[-1])
        found.parts.append(part.code)
        if not part.lines:
            kind = GapKind.NO_MATERIALS if part.kind is PartKind.ARTICLE else GapKind.NO_LINES
            found.gaps.append(Gap(kind, chain, part.name))
        for line in part.lines:
            if part.kind is PartKind.ARTICLE:
                found.materials.setdefault(line.child, (*chain, line.child))
            elif line.child not in seen:
                seen.add(line.child)
                waiting.append((*chain, line.child))
    _look_at_materials(looker, found, older_than)
    found.is_torn = looker.desk.told != found.version
    return found


def _look_at_materials(looker, found, older_than):
    """What the exported tables tell of the materials; without them it isn't looked for, which is told."""
    if looker.kept is None:
        found.not_looked_for.append("claims that match no exemption row, as no question is answered on claims (give --export FILE)")
        return
    for code, chain in sorted(found.materials.items()):
        material = looker.kept.materials.get(code)
        if material is None:
            raise UnreadableExport(f"the export doesn't have the material {code}, so it isn't of this desk")
        if older_than is not None and material.day < older_than:
            told = f"by {material.supplier} on {material.day}, declaration {material.declaration}"
            found.gaps.append(Gap(GapKind.OLD_DECLARATION, chain, told))
        for claim in looker.kept.unmatched_claims(code):
            like = "".join(f"; there is a row for `{number}`" for number in looker.kept.like(claim))
            found.gaps.append(Gap(GapKind.UNMATCHED_CLAIM, chain, f"{claim.rule.value} `{claim.number}` of {material.supplier}{like}"))
