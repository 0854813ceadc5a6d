"""Enters files into a desk, in order, and tells each refusal with its file, row, cell and value, and what to do."""
import collections
import dataclasses
import enum
import sys
import time

from client import declared
from client.desk import NoSuchCode, RequestFault
from client.forms import Word
from client.places import Fault
from client.refusals import refusal_of


class Outcome(enum.Enum):
    """What became of a row."""

    ENTERED = "entered"
    KNOWN = "there already"
    OVERWRITTEN = "there already and changed since"
    REFUSED = "refused"


class Progress:
    """A bar that shows on a terminal how far a long work is."""

    WIDTH = 40
    SECONDS_BETWEEN = 0.1

    def __init__(self, total, stream=None):
        self.total, self.done, self.drawn = total, 0, 0.0
        self.stream = stream or sys.stderr
        self.is_shown = self.stream.isatty()

    def step(self):
        self.done += 1
        now = time.monotonic()
        if self.is_shown and (now - self.drawn > self.SECONDS_BETWEEN or self.done == self.total):
            self.drawn = now
            full = self.WIDTH * self.done // self.total
            self.stream.write(f"\r[{'#' * full}{' ' * (self.WIDTH - full)}] {self.done} of {self.total}")
            self.stream.flush()

    def clear(self):
        """Takes the bar off, so that a line can be written in its place."""
        if self.is_shown:
            self.stream.write(f"\r{' ' * (self.WIDTH + 40)}\r")
            self.stream.flush()


@dataclasses.dataclass
class Report:
    """What became of the rows of each file, and the faults."""

    counts: dict[str, collections.Counter]
    faults: list[Fault]

    def lines(self):
        for name, counts in self.counts.items():
            yield f"{name}: {', '.join(f'{counts[outcome]} {outcome.value}' for outcome in Outcome if counts[outcome]) or 'nothing to enter'}"


class Enterer:
    """Enters entries over a connection to a desk."""

    # Under so many tickets of its own the content of a row is looked for.
    MOST_TICKETS = 1000

    def __init__(self, desk, is_again=False):
        self.desk, self.is_again = desk, is_again
        self.parts = {}

    def enter(self, entry):
        """Enters one entry: its outcome, and its faults."""
        try:
            return self.send(entry)
        except RequestFault as fault:
            return Outcome.REFUSED, list(faults_of_refusal(entry, fault))

    def send(self, entry):
        """Sends one entry: its outcome, and its faults. Raises `RequestFault` where the desk refuses it."""
        accepted = self.desk.enter(entry.edit) if entry.declaration is None else self.desk.declare(entry.declaration)
        if not accepted.was_known:
            self.forget(entry)
            return Outcome.ENTERED, []
        if entry.declaration is not None or not entry.is_ticket_made or self.holds(entry.edit):
            return Outcome.KNOWN, list(self.known_shipment(entry, accepted))
        if self.is_again:
            return self.enter_again(entry)
        remedy = "Nothing was changed. To enter it once more, say --again."
        what = f"it was entered as edit {accepted.number}, and the desk has something else there by now"
        return Outcome.OVERWRITTEN, [Fault(entry.place, None, what, remedy)]

    def enter_again(self, entry):
        """Enters an edit that a later one has overwritten, under the next ticket of its content."""
        for number in range(2, self.MOST_TICKETS):
            accepted = self.desk.enter({**entry.edit, "ticket": f"{entry.edit['ticket']}-{number}"})
            if not accepted.was_known:
                self.forget(entry)
                return Outcome.ENTERED, []
        return Outcome.REFUSED, [Fault(entry.place, None, "it was entered too often", "Give it a ticket of its own.")]

    def known_shipment(self, entry, accepted):
        """A shipment that is there already may be meant as a further one."""
        is_shipment = entry.edit is not None and entry.edit["edit"] in (Word.SHIP.value, Word.UNSHIP.value)
        if is_shipment and entry.is_ticket_made and entry.reference is None:
            what = f"these units were entered before, as edit {accepted.number}, and aren't counted again"
            yield Fault(entry.place, None, what, "If these are further units, give the row a reference of its own.")

    def forget(self, entry):
        """A part of which a line or a name was changed is asked anew."""
        if entry.edit is not None:
            for key in ("parent", "code", "part"):
                self.parts.pop(entry.edit.get(key), None)

    def part(self, code):
        """The desk's answer on a part, or None where it has none."""
        if code not in self.parts:
            try:
                self.parts[code] = self.desk.part(code)
            except NoSuchCode:
                self.parts[code] = None
        return self.parts[code]

    def holds(self, edit):
        """Whether the desk still has what an edit made, as far as a question tells it: of parts, lines and products."""
        word = Word(edit["edit"])
        if word not in (Word.PART, Word.LINE, Word.UNLINE, Word.PRODUCT):
            return True
        part = self.part(edit.get("parent") or edit.get("code") or edit.get("part"))
        if part is None:
            return False
        if word is Word.PART:
            return part.name == edit["name"]
        if word is Word.PRODUCT:
            return part.product_kind is not None and part.product_kind.value == edit["kind"]
        count = next((line.count for line in part.lines if line.child == edit["child"]), None)
        return count == edit.get("count")


def faults_of_refusal(entry, fault):
    """What the desk's refusal of an entry is about, by its cell."""
    refusal = refusal_of(fault.words)
    what = f"the desk says `{refusal.line}`"
    if entry.declaration is not None:
        yield from _declaration_faults(entry, refusal, what)
        return
    key = refusal.key({**entry.edit, **({"reference": entry.reference} if entry.reference else {})})
    place, value = entry.cells.get(key, (entry.place, None))
    yield Fault(place, value, what, refusal.remedy)


def _declaration_faults(entry, refusal, what):
    """The rows of a declaration that a refusal is about, or the whole of it."""
    wanted = {
        "unknown-substance": ("S", 3),
        "name-taken": ("M", 2),
        "foreign-material": ("M", 2),
        "stale-declaration": ("M", 2),
        "masses-exceed": ("M", 2),
        "ticket-reused": ("D", None),
    }.get(refusal.word)
    is_found = False
    for record in declared.records_of(entry.place.file, entry.declaration) if wanted else ():
        sort, column = wanted
        if record.fields[0] == sort and (column is None or record.fields[column - 1] == refusal.named[0]):
            is_found = True
            column = column or 4
            yield Fault(record.at(column), record.fields[column - 1], what, refusal.remedy)
    if not is_found:
        yield Fault(entry.place, None, what, refusal.remedy)


def enter_all(loaded, enterer, tell):
    """Enters all entries of the files in order; `tell` is given each fault as it comes. Gives the report."""
    report = Report({file.name: collections.Counter() for file in loaded}, [])
    progress = Progress(sum(len(file.entries) for file in loaded))
    for file in loaded:
        for entry in file.entries:
            outcome, faults = enterer.enter(entry)
            report.counts[file.name][outcome] += 1
            if faults:
                progress.clear()
            for fault in faults:
                tell(fault)
            if outcome in (Outcome.REFUSED, Outcome.OVERWRITTEN):
                report.faults.extend(faults)
            progress.step()
    progress.clear()
    return report
