"""Requests by chance: edits that are good, refused and none, declarations, and all eight questions."""
import random

import talk

RULES = "lead mercury cadmium chromium-vi pbb pbde dehp bbp dbp dibp".split()
KINDS = "1 2 3 4 5 6 7 7t 8 8i 9 9i 10 11".split()
SUBSTANCES = [*RULES, *(f"s{it}" for it in range(30))]
MATERIALS = [f"M{it}" for it in range(60)]
PARTS = [f"P{it}" for it in range(80)]
GLASS = '"Glass, ""red"""'
DAYS = "2014-07-22 2016-07-21 2019-07-22 2021-07-21 2024-02-29 2030-12-31 2099-12-31".split()


class Maker:
    """Makes requests by chance, which a seed decides."""

    def __init__(self, seed):
        self.chance = random.Random(seed)

    def some(self, *values):
        return self.chance.choice(values)

    def substance(self, ticket):
        return talk.edit("substance", ticket, code=self.chance.choice(SUBSTANCES), name=self.some("Lead", "\u00d6l", "x"), cas=self.some(None, "7439-92-1", "1-1-1"))

    def member(self, ticket):
        return talk.edit("member", ticket, substance=self.chance.choice(SUBSTANCES), rule=self.chance.choice(RULES), factor=self.some(0, 1, 500_000, 1_000_000))

    def part(self, ticket):
        code = self.chance.choice(PARTS + MATERIALS[:3])
        kind = "article" if code[1:].isdigit() and int(code[1:]) >= 50 else "assembly"
        return talk.edit("part", ticket, code=code, kind=kind if self.chance.random() < 0.97 else "article", name=f"Part {self.chance.randrange(9)}")

    def line(self, ticket):
        # Mostly downwards, so that most lines close no cycle.
        parent, child = sorted(self.chance.sample(range(80), 2))
        if self.chance.random() < 0.05:
            parent, child = child, parent
        under = self.chance.choice(MATERIALS) if parent >= 50 else PARTS[child]
        return talk.edit("line", ticket, parent=PARTS[parent], child=under, count=self.some(1, 2, 3, 7, 1_000))

    def unline(self, ticket):
        parent, child = sorted(self.chance.sample(range(80), 2))
        return talk.edit("unline", ticket, parent=PARTS[parent], child=self.some(PARTS[child], self.chance.choice(MATERIALS)))

    def product(self, ticket):
        return talk.edit("product", ticket, part=self.chance.choice(PARTS[:30]), kind=self.chance.choice(KINDS))

    def exemption(self, ticket):
        annex = self.some(3, 4)
        chosen = self.chance.sample(KINDS if annex == 3 else ["8", "8i", "9", "9i", "3"], self.some(1, 2, 4))
        first, last = self.chance.choice(DAYS), self.chance.choice(DAYS)
        fields = dict(number=self.some("6(c)", "7(a)", "I"), rule=self.some("lead", "cadmium"), kinds=chosen, application="Alloy", until=last, floor=self.some(None, 100), cap=self.some(None, 40_000))
        return talk.edit("exemption", ticket, row=f"R{self.chance.randrange(12)}", annex=annex, **{"from": first}, **fields)

    def unexempt(self, ticket):
        return talk.edit("unexempt", ticket, row=f"R{self.chance.randrange(12)}")

    def candidate(self, ticket):
        return talk.edit("candidate", ticket, substance=self.chance.choice(SUBSTANCES), day=self.chance.choice(DAYS))

    def ship(self, ticket):
        return talk.edit(self.some("ship", "ship", "unship"), ticket, product=self.chance.choice(PARTS[:30]), year=self.some(2008, 2024, 2099), units=self.some(1, 1_000, 1_000_000_000))

    def declaration(self, ticket):
        place = self.chance.randrange(6)
        rows = [f"D,1,SUPPLIER{place},{self.chance.randrange(1, 500)},{self.chance.choice(DAYS)}"]
        for material in self.chance.sample(MATERIALS[place::6] if self.chance.random() < 0.95 else MATERIALS, self.some(1, 2, 5)):
            rows.append(f"M,{material},{self.some('Steel', GLASS)},{self.some(1_000, 2_000_000)}")
            rows += [f"S,{material},{it},{self.some(0, 1, 3, 400)}" for it in self.chance.sample(SUBSTANCES[: self.some(10, 10, 25)], self.some(0, 1, 2))]
            rows += [f"E,{material},{self.some('lead', 'cadmium')},{self.some('6(c)', '7(a)', 'I')}" for _ in range(self.some(0, 0, 1))]
        if self.chance.random() < 0.05:
            rows.append(self.some("M,M1", "S,M99,lead,1", "X", rows[-1], "M,M 1,x,1"))
        return talk.declare(self.some("", "\ufeff") + self.some("\n", "\r\n").join(rows) + self.some("", "\n"))

    def no_edit(self, ticket):
        return self.some(
            talk.message("POST", "/edit", b"{"),
            talk.message("POST", "/edit", b"[]"),
            talk.edit("fly", ticket),
            talk.edit("part", ticket, code="P1"),
            talk.edit("part", ticket, code="P 1", kind="article", name="x"),
            talk.edit("part", ticket, code="P1", kind="article", name="x", more=1),
            talk.message("POST", "/version", b""),
            talk.question("/edit"),
            talk.question("/nowhere"),
        )

    def ask(self, ticket):
        code, day = self.chance.choice(PARTS + MATERIALS[:20] + ["ABSENT"]), self.chance.choice(DAYS)
        return talk.question(
            self.some(
                f"/material/{self.chance.choice(MATERIALS)}?kind={self.chance.choice(KINDS)}&day={day}",
                f"/rohs/{code}?day={day}",
                f"/rohs/{self.chance.choice(PARTS[:30])}?day={day}",
                f"/article33/{code}?day={day}",
                f"/article7/{self.some(2008, 2024, 2099)}?day={day}",
                f"/part/{code}",
                f"/uses/{code}",
                f"/summary?day={day}",
                "/version",
                f"/rohs/{code}?day=2014-07-21",
                f"/summary?day={day}&day={day}",
            )
        )

    def edit(self, ticket):
        """An edit or what is none, lines and parts more often than others."""
        makers = [
            self.substance, self.member, self.part, self.part, self.line, self.line, self.line, self.line, self.unline, self.product,
            self.exemption, self.unexempt, self.candidate, self.ship, self.ship, self.declaration, self.declaration, self.no_edit,
        ]
        return self.chance.choice(makers)(ticket)

    def stream(self, length):
        """A stream of so many requests, as their list."""
        stream, edits = [], []
        for place in range(length):
            dice = self.chance.random()
            if dice < 0.4:
                stream.append(self.ask(place))
            elif dice < 0.5 and edits:
                stream.append(self.chance.choice(edits))
            else:
                # A ticket is now and then one of an edit before.
                ticket = f"t{place if self.chance.random() < 0.97 else self.chance.randrange(place + 1)}"
                edits.append(self.edit(ticket))
                stream.append(edits[-1])
        return stream

    def pieces(self, length, most):
        """The bounds of pieces of at most so many requests."""
        cuts, at = [], 0
        while at < length:
            cuts.append((at, at := min(length, at + self.chance.randrange(1, most + 1))))
        return cuts
