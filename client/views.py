"""The views of the local page: each has what it shows, and the desk's texts beside it. There is no script and no outside resource."""
import dataclasses
import urllib.parse

from client import figures, reading, search
from client.answers import PartKind, Verdict
from client.markup import Html, escaped, listed, table, tag, void

# After so many rows, and so many parts below the top, no further part of a bill is opened out on one view.
MOST_ROWS = 3000
MOST_DEPTH = 100


@dataclasses.dataclass(frozen=True)
class View:
    """A view: its title, what it shows, and the desk's texts that stand beside it."""

    title: str
    shown: Html
    texts: tuple[str, ...]


def link(path, text, **query):
    return tag("a", text, href=f"{path}?{urllib.parse.urlencode(query)}")


def lines_of(lines):
    """Lines of a reading, one below another."""
    return tag("pre", "\n".join(lines), class_="reading")


def verdict(is_compliant):
    return tag("strong", "compliant" if is_compliant else "not compliant", class_="good" if is_compliant else "bad")


def products(looker, day):
    """The products with their verdict on a day."""
    answer = looker.desk.summary(day)
    # (each cell says what it is, since a narrow window has no row of heads)
    rows = [
        (
            link("/product", product.code, code=product.code, day=day), f"{product.kind.value}: {product.kind.title}",
            verdict(product.is_compliant), figures.counted(product.breaches, "breach", "breaches"),
            figures.counted(product.duties, "duty", "duties"),
        )
        for product in answer.products
    ]
    heads = ("product", "kind of equipment", "RoHS", "breaches", "duties to inform")
    shown = table(heads, rows) if rows else tag("p", "The desk has no product.")
    return View(f"Products on {day}", shown, (answer.text,))


class _Tree:
    """A bill as a tree. A part is opened out where it stands first; where it stands again, a link leads to its own view."""

    def __init__(self, looker, top, day, findings):
        self.looker, self.day = looker, day
        self.told, self.opened = {}, {top}
        for finding in findings:
            word = "breach" if finding.verdict is Verdict.BREACH else finding.verdict.value
            self.told.setdefault(finding.material, []).append((word, figures.ppm_of_limit(finding)))
            self.opened.update(finding.chain)
        self.kind = looker.part(top).product_kind
        self.seen, self.rows = set(), 0
        self.bad = self.codes_with_breach(top, {finding.material for finding in findings if finding.verdict is Verdict.BREACH})

    def codes_with_breach(self, top, materials):
        """These materials and the parts that reach one of them."""
        users, waiting = {}, [top] if materials else []
        while waiting:
            code = waiting.pop()
            part = self.looker.part(code)
            for line in part.lines:
                if line.child not in users and part.kind is PartKind.ASSEMBLY:
                    waiting.append(line.child)
                users.setdefault(line.child, set()).add(code)
        bad, waiting = set(), list(materials)
        while waiting:
            code = waiting.pop()
            if code not in bad:
                bad.add(code)
                waiting.extend(users.get(code, ()))
        return bad

    def item(self, code, count, is_material, depth=0):
        """The item of a code in its parent's list, so many parts below the top."""
        self.rows += 1
        amount = "" if count is None else f"{count} × "
        if is_material:
            return self.material(code, amount)
        part = self.looker.part(code)
        label = escaped(amount, link("/part", code, code=code, day=self.day), " ", tag("bdi", part.name), f", {figures.mass(part.mass)}")
        if code in self.bad:
            label = escaped(label, " ", tag("strong", "breach inside", class_="bad"))
        if not part.lines:
            return tag("li", label, " ", tag("em", "holds nothing", class_="empty"))
        if code in self.seen:
            return tag("li", label, " (opened out above)")
        self.seen.add(code)
        if self.rows > MOST_ROWS or depth == MOST_DEPTH:
            return tag("li", label, " (not opened out here, since the bill is too large: see its own view)")
        inside = [self.item(line.child, line.count, part.kind is PartKind.ARTICLE, depth + 1) for line in part.lines]
        return tag("li", tag("details", tag("summary", label), tag("ul", *inside), open=code in self.opened))

    def material(self, code, amount):
        """The item of a material, with what is over a limit in it."""
        kept = self.looker.kept and self.looker.kept.materials.get(code)
        query = {"kind": self.kind.value} if self.kind else {}
        label = escaped(amount, link("/material", code, code=code, day=self.day, **query), " ", tag("bdi", kept.name) if kept else "")
        for word, told in self.told.get(code, ()):
            label = escaped(label, " ", tag("strong", f"{word}: {told}", class_="bad" if word == "breach" else "noted"))
        return tag("li", label)


def tree(looker, top, day, findings=()):
    """The bill below a part."""
    return tag("ul", _Tree(looker, top, day, findings).item(top, None, False), class_="tree")


def product(looker, code, day):
    """A product's compliance, with its bill, and its duties to inform."""
    rohs, duties = looker.desk.rohs(code, day), looker.desk.article33(code, day)
    shown = escaped(
        tag("p", verdict(rohs.is_compliant), f" with RoHS as {rohs.kind.title} (kind {rohs.kind.value}), placed on the market on {day}"),
        lines_of(reading.rohs(looker, rohs)),
        tag("h2", "Bill"), tree(looker, code, day, rohs.findings),
        tag("h2", "Duties to inform"), lines_of(reading.article33(looker, duties)),
    )
    return View(f"{code}, {looker.part(code).name}", shown, (rohs.text, duties.text))


def part(looker, code, day):
    """A part with its bill, its duties to inform and where it is used."""
    found = looker.desk.part(code)
    duties, uses = looker.desk.article33(code, day), looker.desk.uses(code)
    shown = escaped(
        tag("p", link("/product", "Its compliance with RoHS", code=code, day=day)) if found.product_kind else "",
        lines_of(reading.part(looker, found)),
        tag("h2", "Bill"), tree(looker, code, day),
        tag("h2", "Duties to inform"), lines_of(reading.article33(looker, duties)),
        tag("h2", "Used in"), _users(looker, uses, day),
    )
    return View(f"{code}, {found.name}", shown, (found.text, duties.text, uses.text))


def _users(looker, uses, day):
    """The parts and products in which a code is used, as links."""
    users = [
        escaped(link("/part", user.parent, code=user.parent, day=day), " ", tag("bdi", looker.part(user.parent).name), f" has {user.count}")
        for user in uses.users
    ]
    reached = [escaped("product ", link("/product", it.code, code=it.code, day=day)) for it in uses.products]
    return listed(users + reached) or tag("p", "Nowhere.")


def material(looker, code, day, kind):
    """A material's verdicts for a kind of equipment, and where it is used."""
    uses = looker.desk.uses(code)
    if kind is None and uses.products:
        kind = uses.products[0].kind.value
    texts = [uses.text]
    shown = [tag("h2", "Used in"), _users(looker, uses, day)]
    if kind is None:
        shown.insert(0, tag("p", "No product holds it, so there is no kind of equipment to judge it for."))
    else:
        answer = looker.desk.material(code, kind, day)
        texts.insert(0, answer.text)
        shown.insert(0, lines_of(reading.material(looker, answer, {"kind": kind, "day": day})))
        shown.insert(0, tag("p", verdict(answer.is_compliant), f" for kind {kind} on {day}"))
    return View(f"{code}, a material", escaped(*shown), tuple(texts))


def notices(looker, year, day):
    """What is to be notified of a year's shipments."""
    answer = looker.desk.article7(year, day)
    return View(f"Notifications of {year}", lines_of(reading.article7(looker, answer)), (answer.text,))


def found(looker, text, day):
    """What a search finds."""
    result = search.search(looker, text, day)
    paths = {search.Sort.PRODUCT: "/product", search.Sort.PART: "/part", search.Sort.MATERIAL: "/material"}
    items = [
        escaped(
            link(paths[hit.sort], hit.code, code=hit.code, day=day), " ", tag("bdi", hit.name),
            f" ({hit.sort.value}{', ' if hit.why else ''}{hit.why})",
        )
        for hit in result.hits
    ]
    shown = escaped(tag("p", figures.counted(len(items), "hit"), ". ", result.looked_in), listed(items))
    return View(f"Search for {text}", shown, ())


def refused(words, body=""):
    """A view that says why there is none."""
    return View("Nothing to show", tag("p", words, role="alert"), (body,) if body else ())


STYLE = """
:root { color-scheme: light; }
* { box-sizing: border-box; }
body { margin: 0; font: 1rem/1.5 system-ui, sans-serif; color: #111; background: #fff; overflow-wrap: anywhere; }
a { color: #0645ad; } a:focus-visible, summary:focus-visible, input:focus-visible, button:focus-visible, pre:focus-visible
  { outline: 3px solid #b35900; outline-offset: 2px; }
.skip { position: absolute; left: -99em; } .skip:focus { left: 1rem; top: 1rem; background: #fff; padding: .5rem; z-index: 1; }
header { border-bottom: 1px solid #767676; padding: .5rem 1rem; }
header form { display: flex; flex-wrap: wrap; gap: .5rem 1rem; align-items: end; }
label { display: inline-flex; flex-direction: column; font-size: .9rem; }
input, button { font: inherit; padding: .25rem .5rem; }
.columns { display: grid; grid-template-columns: minmax(0, 3fr) minmax(0, 2fr); gap: 1.5rem; padding: 0 1rem 2rem; }
@media (max-width: 60rem) { .columns { grid-template-columns: minmax(0, 1fr); gap: 0; } }
h1 { font-size: 1.4rem; } h2 { font-size: 1.1rem; }
table { border-collapse: collapse; } th, td { border: 1px solid #767676; padding: .25rem .6rem; text-align: left; }
pre { font: .85rem/1.45 ui-monospace, monospace; white-space: pre-wrap; background: #f4f4f4; padding: .6rem; margin: .5rem 0; }
.bad { color: #a30000; } .good { color: #00601b; } .noted { color: #5a4500; font-weight: normal; } .empty { color: #5a4500; }
.tree, .tree ul { list-style: none; padding-left: 1.1rem; margin: .2rem 0; } .tree { padding-left: 0; }
summary { cursor: pointer; }
@media (max-width: 40rem) { table, tbody, tr, td, thead { display: block; } thead { position: absolute; left: -99em; }
  tr { border-bottom: 1px solid #767676; } td { border: 0; } }
"""


def document(view, day, query=""):
    """The whole page of a view."""
    form = tag(
        "form",
        tag("label", "Day", void("input", name="day", value=day, pattern=r"\d{4}-\d\d-\d\d", size=10, required=True)),
        tag("label", "Part, material or substance", void("input", name="q", value=query, type="search", size=24)),
        tag("button", "Show"),
        action="/search", role="search",
    )
    nav = tag("nav", link("/", "Products", day=day), " · ", link("/article7", f"Notifications of {str(day)[:4]}", year=str(day)[:4], day=day))
    texts = [tag("pre", text, tabindex="0", class_="desk") for text in view.texts]
    aside = tag("aside", tag("h2", "The desk's text"), *texts, aria_label="The desk's text") if texts else ""
    head = tag(
        "head", void("meta", charset="utf-8"), void("meta", name="viewport", content="width=device-width, initial-scale=1"),
        tag("title", view.title), void("link", rel="stylesheet", href="/style.css"), void("link", rel="icon", href="data:,"),
    )
    body = tag(
        "body", tag("a", "To the contents", href="#contents", class_="skip"), tag("header", nav, form),
        tag("div", tag("main", tag("h1", view.title), view.shown, id="contents", tabindex="-1"), aside, class_="columns"),
    )
    return f"<!DOCTYPE html>\n{tag('html', head, body, lang='en')}\n"
