"""What a person reads of an answer. It stands above the desk's text, which it never changes, and is no part of the desk's proof."""
import collections
import fractions

from client import figures
from client.answers import PartKind, Verdict
from client.law import LAST_DAY, TONNE


def _dated(text, version):
    yield f"{text} (after {figures.counted(version, 'edit')})"


def cover_text(looker, finding, kind, day):
    """How long the row of a finding covers, as the desk answers on later days."""
    cover = looker.cover(finding, kind, day)
    if cover.last == LAST_DAY:
        return f"covered until {LAST_DAY}, the last day that the desk knows"
    then = "a breach" if cover.next_verdict is Verdict.BREACH else f"exempt by row {cover.next_row}"
    return f"covered until {cover.last}; from the next day on it is {then}"


def claims_text(looker, materials):
    """The claims of these materials that match no row, or that this can't be told."""
    if looker.kept is None:
        yield "Claims that match no exemption row can't be told over a port: the desk answers no question on them (give --export FILE)."
        return
    for material in materials:
        for claim in looker.kept.unmatched_claims(material):
            like = looker.kept.like(claim)
            hint = "".join(f"; there is a row for `{number}`" for number in like)
            yield f"claim  {material} claims {claim.rule.value} `{claim.number}`, which no row has, so that it covers nothing{hint}"


def _indented(lines):
    return [f"  {line}" for line in lines]


def rohs(looker, answer):
    """The reading of a product's compliance."""
    word = "compliant" if answer.is_compliant else "NOT COMPLIANT"
    kind = f"{answer.kind.title} (kind {answer.kind.value})"
    yield from _dated(f"{answer.code}, {kind}, placed on the market on {answer.day}: {word}", answer.version)
    yield f"It weighs {figures.mass(answer.mass)}. A product whose parts are empty is compliant too: see `desk-client gaps {answer.code}`."
    chains = []
    for finding in answer.findings:
        told = figures.ppm_of_limit(finding)
        if finding.verdict is Verdict.BREACH:
            yield f"breach  {finding.material}: {told}"
            chains.append((finding.chain, told))
        elif finding.verdict is Verdict.EXEMPT:
            cover = cover_text(looker, finding, answer.kind, answer.day)
            yield f"exempt  {finding.material}: {told}, by row {finding.row} for {finding.number}, {cover}"
        else:
            yield f"not in force  {finding.material}: {told}, and the rule isn't in force for this kind on this day"
    yield from claims_text(looker, sorted({finding.material for finding in answer.findings}))
    if chains:
        yield "Where the breaches are (one place each, there may be others):"
        yield from _indented(looker.tree(chains).lines())


def material(looker, answer, words):
    """The reading of a material's verdicts, for the kind and the day of the question's words."""
    word = "compliant" if answer.is_compliant else "NOT COMPLIANT"
    yield from _dated(f"{answer.code} of {answer.supplier}, declaration {answer.declaration}: {word}", answer.version)
    kept = looker.kept and looker.kept.materials.get(answer.code)
    if kept:
        yield f"It is {kept.name}, declared on {kept.day}."
    yield f"What was declared weighs {figures.mass(answer.mass)}."
    for finding in answer.findings:
        if finding.share or finding.verdict is not Verdict.WITHIN:
            exempt = ""
            if finding.verdict is Verdict.EXEMPT:
                cover = cover_text(looker, finding, words["kind"], words["day"])
                exempt = f", by row {finding.row} for {finding.number}, {cover}"
            yield f"{finding.verdict.value}  {figures.ppm_of_limit(finding)}{exempt}"
    others = sum(1 for finding in answer.findings if not finding.share)
    yield f"Of {figures.counted(others, 'other restricted substance')} nothing was declared that counts, which is taken as none."
    yield from claims_text(looker, [answer.code])


def article33(looker, answer):
    """The reading of a part's duties to inform."""
    yield from _dated(f"{answer.code} on {answer.day}: {figures.counted(len(answer.duties), 'duty', 'duties')} to inform", answer.version)
    for duty in answer.duties:
        share = figures.percent(duty.mass, duty.of, fractions.Fraction(1, 10))
        yield f"duty  {duty.article}: {duty.substance} {share}, which is more than 0.1 % ({figures.mass(duty.mass)} of {figures.mass(duty.of)})"
        yield f"      {duty.name}, on the candidate list since {duty.included}"
    if answer.duties:
        yield "Where these articles are (one place each, there may be others):"
        yield from _indented(looker.tree([(duty.chain, duty.substance) for duty in answer.duties]).lines())


def article7(looker, answer):
    """The reading of a year's notifications."""
    count = figures.counted(len(answer.notices), "substance")
    yield from _dated(f"Shipments of {answer.year}, as the list was on {answer.day}: {count} to notify", answer.version)
    for notice in answer.notices:
        due = f"by {notice.due}" if notice.due else "after 2099"
        yield f"notify  {notice.substance} {due}: {_of_a_tonne(notice.tonnage)}; on the candidate list since {notice.included}"
    yield from _below_a_tonne(looker, answer)


def _of_a_tonne(tonnage):
    return f"{figures.mass(tonnage)}, which is {figures.percent(tonnage, TONNE, 100)} of a tonne"


def _below_a_tonne(looker, answer):
    """What is carried and stays below a tonne: reckoned from the shipments of an export and the desk's answers on parts."""
    if looker.kept is None:
        yield "What stays below a tonne can't be told over a port: the desk answers no question on shipments (give --export FILE)."
        return
    tonnages = collections.Counter()
    for shipment in looker.kept.shipments:
        part = looker.part(shipment.product) if shipment.year == answer.year else None
        for carried in part.carried if part else ():
            tonnages[carried.substance] += shipment.units * carried.mass
    told = {notice.substance: notice.tonnage for notice in answer.notices}
    for substance, tonnage in sorted(tonnages.items(), key=lambda pair: -pair[1]):
        included = looker.kept.candidates.get(substance)
        if substance in told:
            if told[substance] != tonnage:
                yield f"{substance}: the export comes to {figures.mass(tonnage)}, so it isn't of these tables"
        elif included and included <= answer.day:
            yield f"below  {substance}: {_of_a_tonne(tonnage)}"
    if not tonnages:
        yield "Nothing of the candidate list was carried above 0.1 % in an article."


def part(looker, answer):
    """The reading of a part."""
    yield from _dated(f"{answer.code}, {answer.name}: an {answer.kind.value} of {figures.mass(answer.mass)}", answer.version)
    if answer.product_kind:
        yield f"It is a product: {answer.product_kind.title} (kind {answer.product_kind.value})."
    if not answer.lines:
        missing = "materials" if answer.kind is PartKind.ARTICLE else "lines"
        yield f"It has no {missing}, so it weighs nothing and breaches nothing."
    for line in answer.lines:
        node = looker.node(line.child, line.count)
        yield from _indented(node.lines())
    for carried in answer.carried:
        yield f"It carries {figures.mass(carried.mass)} of the candidate {carried.substance}."


def uses(looker, answer):
    """The reading of where a code is used."""
    parts, products = figures.counted(len(answer.users), "part"), figures.counted(len(answer.products), "product")
    yield from _dated(f"{answer.code} is used in {parts} and {products}", answer.version)
    for user in answer.users:
        found = looker.part(user.parent)
        yield f"  {user.parent}{f'  {found.name}' if found else ''} has {user.count}"
    for product in answer.products:
        yield f"  product {product.code}, {product.kind.title} (kind {product.kind.value})"


def summary(looker, answer):
    """The reading of the whole desk."""
    bad = [product for product in answer.products if not product.is_compliant]
    text = f"{figures.counted(len(answer.products), 'product')} on {answer.day}: {len(bad)} not compliant"
    yield from _dated(text, answer.version)
    for product in answer.products:
        word = "compliant" if product.is_compliant else f"NOT COMPLIANT, {figures.counted(product.breaches, 'breach', 'breaches')}"
        yield f"  {product.code} (kind {product.kind.value}): {word}; {figures.counted(product.duties, 'duty', 'duties')} to inform"
