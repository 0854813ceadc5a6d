"""Looks things up in a desk for the readings: parts once each, the last day of a cover, the tree of several chains."""
import dataclasses
import datetime

from client.answers import Verdict
from client.desk import NoSuchCode
from client.law import LAST_DAY


@dataclasses.dataclass(frozen=True)
class Cover:
    """How long an exemption row covers a material: its last day there, and what the material's verdict is on the next, if there is one."""

    last: datetime.date
    next_verdict: Verdict | None
    next_row: str | None


@dataclasses.dataclass
class Node:
    """A part or a material in a tree: its code, how many its parent holds or None for the top, its name where one is known, what is told
    of it, and what it holds."""

    code: str
    count: int | None = None
    name: str | None = None
    told: list[str] = dataclasses.field(default_factory=list)
    children: dict[str, "Node"] = dataclasses.field(default_factory=dict)

    def lines(self):
        """The tree, indented by its depth."""
        waiting = [(self, 0)]
        while waiting:
            node, depth = waiting.pop()
            count = "" if node.count is None else f"{node.count} x "
            name = f"  {node.name}" if node.name else ""
            yield f"{'  ' * depth}{count}{node.code}{name}{''.join(f'  <- {told}' for told in node.told)}"
            waiting.extend((child, depth + 1) for child in reversed(node.children.values()))


class Looker:
    """A desk and, where they are known, its exported tables. What was asked once is kept as long as the looker is."""

    def __init__(self, desk, kept=None):
        self.desk, self.kept = desk, kept
        self.parts, self.covers = {}, {}

    def part(self, code):
        """The desk's answer on a part, or None where the code is a material's or nobody's."""
        if code not in self.parts:
            try:
                self.parts[code] = self.desk.part(code)
            except NoSuchCode:
                self.parts[code] = None
        return self.parts[code]

    def finding(self, material, rule, kind, day):
        """The desk's verdict on a material for one rule."""
        return next(it for it in self.desk.material(material, kind, day).findings if it.rule is rule)

    def cover(self, finding, kind, day):
        """How long the row covers that is named in a finding for this kind and day, as the desk answers on later days."""
        key = (finding.material, finding.rule, finding.row, kind)
        if key not in self.covers:
            self.covers[key] = self._cover(finding, kind, day)
        return self.covers[key]

    def _cover(self, finding, kind, day):
        # A row's days are one span, so where it is named on two days it covers on all between.
        covered, after = day, LAST_DAY + datetime.timedelta(days=1)
        following = None
        while (after - covered).days > 1:
            middle = covered + (after - covered) // 2
            found = self.finding(finding.material, finding.rule, kind, middle)
            if found.row == finding.row:
                covered = middle
            else:
                after, following = middle, found
        return Cover(covered, following and following.verdict, following and following.row)

    def tree(self, chains):
        """The tree of several chains that begin with the same part; each is a tuple of codes and what is told of its end."""
        top = self.node(chains[0][0][0])
        for codes, told in chains:
            node = top
            for parent, code in zip(codes, codes[1:]):
                node = self.step(node, self.part(parent), code)
            node.told.append(told)
        return top

    def node(self, code, count=None):
        part = self.part(code)
        kept = self.kept and self.kept.materials.get(code)
        return Node(code, count, part.name if part else kept.name if kept else None)

    def step(self, node, part, code):
        """The child of a node, which is added where it isn't there."""
        if code not in node.children:
            count = next((line.count for line in part.lines if line.child == code), None) if part else None
            node.children[code] = self.node(code, count)
        return node.children[code]
