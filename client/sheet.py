"""One page for the file that is signed: the question, the desk's answers byte for byte, the gaps, and the materials with their sources."""
import dataclasses
import datetime
import hashlib
import html

from client import figures, gaps
from client.answers import DutiesAnswer, RohsAnswer

TRIES = 5
BEGIN, END = "----- the desk's text begins -----", "----- the desk's text ends -----"


class Restless(Exception):
    """The desk was changed each time while the sheet was made."""


@dataclasses.dataclass(frozen=True)
class Source:
    """A material, and of which declaration it is."""

    material: str
    supplier: str
    declaration: int
    # What only an export tells.
    name: str
    declared: datetime.date | None


@dataclasses.dataclass(frozen=True)
class Sheet:
    """What stands on a sheet. All of it is of one version of the tables."""

    name: str
    rohs: RohsAnswer
    duties: DutiesAnswer
    found: gaps.Found
    sources: tuple[Source, ...]


def make(new_looker, code, day, older_than=None):
    """Makes a sheet of answers that are all of one version. `new_looker` gives a looker that has asked nothing yet. Raises `Restless`."""
    for _ in range(TRIES):
        looker = new_looker()
        rohs = looker.desk.rohs(code, day)
        duties = looker.desk.article33(code, day)
        found = gaps.look(looker, code, older_than)
        sources = tuple(_source(looker, material, rohs) for material in sorted(found.materials))
        if looker.desk.version() == rohs.version:
            return Sheet(looker.part(code).name, rohs, duties, found, sources)
    raise Restless(f"the desk was changed {TRIES} times while the sheet was made; make it when nobody enters anything")


def _source(looker, code, rohs):
    answer = looker.desk.material(code, rohs.kind, rohs.day)
    kept = looker.kept and looker.kept.materials.get(code)
    return Source(code, answer.supplier, answer.declaration, kept.name if kept else "", kept.day if kept else None)


def _question(sheet):
    rohs = sheet.rohs
    yield f"Product {rohs.code}, {sheet.name}, equipment of kind {rohs.kind.value} ({rohs.kind.title}),"
    yield f"placed on the market on {rohs.day}, of {figures.mass(rohs.mass)}."
    yield "Does it meet Directive 2011/65/EU (RoHS), Article 4? Which articles in it carry a duty to inform"
    yield "under Regulation (EC) 1907/2006 (REACH), Article 33?"
    yield f"Version of the tables: {rohs.version}"


def digest(body):
    """The SHA-256 of an answer's bytes, in hexadecimal."""
    return hashlib.sha256(body).hexdigest()


def _digest_line(body):
    return f"SHA-256 of these {len(body)} bytes: {digest(body)}"


CAUTION = (
    "The texts marked as the desk's are its answers byte for byte. Everything else on this page was put together beside them",
    "and is no part of the desk's proof. The desk takes what suppliers declared as true.",
)
SIGNATURE = ("Place and day", "Name", "Signature")
SOURCE_HEADS = ("material", "supplier", "declaration", "declared on", "name")


def _source_row(source):
    return source.material, source.supplier, str(source.declaration), str(source.declared or ""), source.name


def text(sheet):
    """The sheet as plain text."""
    lines = [f"COMPLIANCE SHEET  {sheet.rohs.code}  {sheet.rohs.day}", ""]
    lines += ["1. The question", "", *_question(sheet), ""]
    for number, (title, answer) in enumerate((("RoHS", sheet.rohs), ("REACH Article 33", sheet.duties)), 2):
        lines += [f"{number}. The desk's answer on {title}", "", _digest_line(answer.body), BEGIN]
        lines += [*answer.text.removesuffix("\n").split("\n"), END, ""]
    lines += ["4. What is missing below the product", "", *sheet.found.lines(), ""]
    lines += ["5. The materials and their declarations", ""]
    rows = [SOURCE_HEADS, *map(_source_row, sheet.sources)]
    widths = [max(len(row[column]) for row in rows) for column in range(len(SOURCE_HEADS))]
    lines += ["  ".join(cell.ljust(width) for cell, width in zip(row, widths)).rstrip() for row in rows]
    lines += ["", "6. Signature", "", *(f"{word + ':':15}{'_' * 50}" for word in SIGNATURE), "", *CAUTION]
    return "\n".join(lines) + "\n"


STYLE = """
body { font: 11pt/1.4 sans-serif; max-width: 48em; margin: 2em auto; padding: 0 1em; color: #000; background: #fff; }
h1 { font-size: 1.5em; } h2 { font-size: 1.1em; break-after: avoid; }
pre { font: 9pt/1.35 monospace; white-space: pre-wrap; overflow-wrap: anywhere; border: 1px solid #777; padding: .6em; }
table { border-collapse: collapse; width: 100%; } th, td { border: 1px solid #777; padding: .2em .5em; text-align: left; vertical-align: top; }
thead { display: table-header-group; } tr { break-inside: avoid; }
.digest { font: 9pt monospace; overflow-wrap: anywhere; }
.line { width: 75%; height: 2.2em; }
@page { margin: 2cm; }
@media print { body { margin: 0; max-width: none; } }
"""


def page(sheet):
    """The sheet as one HTML page without other resources, which prints well."""
    escape = html.escape
    parts = [f"<!DOCTYPE html>\n<html lang=\"en\">\n<meta charset=\"utf-8\">\n<title>{escape(f'{sheet.rohs.code} {sheet.rohs.day}')}</title>"]
    parts += [f"<style>{STYLE}</style>", f"<h1>Compliance sheet: {escape(sheet.rohs.code)}, {sheet.rohs.day}</h1>"]
    parts += ["<h2>1. The question</h2>", f"<p>{'<br>'.join(map(escape, _question(sheet)))}</p>"]
    for number, (title, answer) in enumerate((("RoHS", sheet.rohs), ("REACH Article 33", sheet.duties)), 2):
        parts += [f"<h2>{number}. The desk's answer on {title}</h2>", f"<p class=\"digest\">{_digest_line(answer.body)}</p>"]
        parts.append(f"<pre>{escape(answer.text)}</pre>")
    parts += ["<h2>4. What is missing below the product</h2>", f"<pre>{escape(chr(10).join(sheet.found.lines()))}</pre>"]
    parts += ["<h2>5. The materials and their declarations</h2>", "<table><thead>", _table_row(SOURCE_HEADS, "th"), "</thead><tbody>"]
    parts += [_table_row(_source_row(source), "td") for source in sheet.sources]
    parts += ["</tbody></table>", "<h2>6. Signature</h2>", "<table>"]
    parts += [f"<tr><th scope=\"row\">{word}</th><td class=\"line\"></td></tr>" for word in SIGNATURE]
    parts += ["</table>", f"<p>{' '.join(map(escape, CAUTION))}</p>", "</html>"]
    return "\n".join(parts) + "\n"


def _table_row(cells, tag):
    return f"<tr>{''.join(f'<{tag}>{html.escape(cell)}</{tag}>' for cell in cells)}</tr>"
