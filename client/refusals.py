"""The desk's refusals of edits and declarations: which value of the edit each is about, and what to do."""
import dataclasses

# What to do about each refusal of an edit, by the first word of what the desk says behind `refused`.
REMEDIES = {
    "ticket-reused": "The ticket is kept with another edit. Give this one a ticket, a reference or a number of its own.",
    "unknown-substance": "The desk doesn't keep this substance. Correct the code, or enter the substance first.",
    "unknown-material": "No declaration of this material is entered. Correct the code, or enter its supplier's declaration first.",
    "unknown-part": "The desk doesn't keep this part. Correct the code, or enter the part first.",
    "unknown-product": "This part is no product. Correct the code, or enter the product with its kind of equipment first.",
    "unknown-exemption": "The desk doesn't keep this row. Correct the code.",
    "name-taken": "A material and a part can't have the same code. Choose another code for one of them.",
    "kind-changed": "The part is kept as the other of article and assembly, and stays it. Correct the kind, or choose another code.",
    "wrong-child": "A line of an article leads to a material, one of an assembly to a part. Correct the code, or the kind of the parent.",
    "no-such-line": "The desk has no such line. Correct the codes; if it is out already, nothing is to be done.",
    "foreign-material": "Another supplier has declared a material of this code. Agree on another code with this supplier.",
    "stale-declaration": "Of this material the desk has a later declaration of the supplier. Ask for one with a greater number.",
    "masses-exceed": "The substances weigh more than the material. Look at the units: masses are in micrograms of one piece.",
    "exemption-span": "The last day is before the first, or the floor is greater than the cap.",
    "annex-kinds": "A row of Annex IV is for the kinds 8, 8i, 9 and 9i alone.",
    "ship-below-zero": "Fewer units are kept than are taken off.",
    "units-too-large": "A product has at most 1,000,000,000,000 units in a year.",
    "table-full": "The table has no room for a further row.",
    "text-full": "The desk has no room for a further edit: export it, and import all but the tickets into a new store.",
    "closes-cycle": "The child holds the parent already, by this chain. Correct one of the lines.",
    "total-too-large": "The part would weigh 2^128 micrograms or more. Look at the counts and the masses.",
    "findings-full": "All parts together would have too many findings.",
    "year-too-large": "The shipments of the year would weigh 2^128 micrograms or more. Look at the units.",
    # Faults of the form.
    "bad-edit": "Mend the edit: docs/FORMATS.md has its keys, and the form of each.",
    "bad-declaration": "Mend the declaration, or convert the supplier's sheet by `bin/desk-client declaration`.",
    "body-too-long": "It has more than 65,536 bytes. Send several declarations.",
}

# The keys of an edit that a refusal may be about, in order: the first whose value the refusal names, or the first alone.
KEYS = {
    "ticket-reused": ("reference", "ticket"),
    "unknown-substance": ("substance",),
    "unknown-material": ("child",),
    "unknown-part": ("parent", "child", "part"),
    "unknown-product": ("product",),
    "unknown-exemption": ("row",),
    "name-taken": ("code",),
    "kind-changed": ("kind",),
    "wrong-child": ("child",),
    "no-such-line": ("child",),
    "exemption-span": ("until",),
    "annex-kinds": ("kinds",),
    "ship-below-zero": ("units",),
    "units-too-large": ("units",),
    "closes-cycle": ("child",),
    "total-too-large": ("count", "mass"),
    "year-too-large": ("units",),
}


@dataclasses.dataclass(frozen=True)
class Refusal:
    """What the desk said of an edit: its own line, the word of the rule, and the codes or numbers that it names."""

    line: str
    word: str
    named: tuple[str, ...]

    @property
    def remedy(self):
        return REMEDIES.get(self.word, "docs/FORMATS.md says what this is.")

    def key(self, values):
        """The key of the value that it is about, of an edit with these values by their keys, or None for the whole edit."""
        if self.word == "bad-edit" and len(self.named) == 2:
            return self.named[1] if self.named[1] in values else None
        keys = [key for key in KEYS.get(self.word, ()) if key in values]
        return next((key for key in keys if str(values[key]) in self.named), keys[0] if keys else None)


def refusal_of(line):
    """The refusal that the desk's line is."""
    words = line.split(" ")
    if words[0] == "refused":
        words = words[1:]
    return Refusal(line, words[0], tuple(words[1:]))
