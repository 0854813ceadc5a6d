"""The form of the case files in tests/cases, which tests/README.md describes: reading them, and what a case says."""
import dataclasses
import functools
import itertools
import os
import pathlib
import re
import shlex

CALLS = {"int": int, "len": len, "str": str}
REPLY_HEAD = "HTTP/1.1 {status}\r\nContent-Type: text/plain; charset=utf-8\r\nContent-Length: {length}\r\n{lines}\r\n"


class Fault(Exception):
    """A case file that isn't of the form."""


@dataclasses.dataclass
class Run:
    """One run of the program: its words, what it reads, and what it has to write and end with."""

    words: list
    read_from: str | None = None
    write_to: str | None = None
    given: list = dataclasses.field(default_factory=list)
    wanted: list = dataclasses.field(default_factory=list)
    told: list | None = None
    status: int = 0

    def input(self):
        return b"".join(part.bytes() for part in self.given)

    def output(self):
        return b"".join(part.bytes() for part in self.wanted)

    def line_of_output(self, place):
        """The line of the case file that says which output stands at this place."""
        line = None
        for part in self.wanted:
            line = part.line
            place -= len(part.bytes())
            if place < 0:
                break
        return line


@dataclasses.dataclass
class Plain:
    """Bytes as they are."""

    line: int
    text: bytearray = dataclasses.field(default_factory=bytearray)

    def bytes(self):
        return bytes(self.text)


@dataclasses.dataclass
class Message(Plain):
    """A request with its body, or a reply with its body, whose head counts the bytes of the body."""

    head: str = ""

    def bytes(self):
        return self.head.replace("{length}", str(len(self.text))).encode() + bytes(self.text)


@dataclasses.dataclass
class Step:
    """What is done between two runs: a statement of SQL over a file, or a record that is put into a store."""

    database: str
    statement: str
    values: tuple = ()


@dataclasses.dataclass
class Case:
    """A case as it stands in its file: a title, what it is tried with, and its lines."""

    file: pathlib.Path
    line: int
    title: str
    names: list = dataclasses.field(default_factory=list)
    rows: list = dataclasses.field(default_factory=list)
    cuts: list = dataclasses.field(default_factory=list)
    is_long: bool = False
    needs_launcher: bool = False
    is_of_program: bool = False
    lines: list = dataclasses.field(default_factory=list)

    def trials(self):
        """The trials of the case, one a row: what tells the row, and its values."""
        for row in self.rows or [()]:
            yield " | ".join(row), dict(zip(self.names, row))

    def steps(self, values):
        """The steps of the trial with these values."""
        return Reader(self, values).steps()


def end_of_hole(text, place):
    """Where the bracket ends that opens before this place."""
    depth = 1
    while depth:
        if place == len(text):
            raise Fault("a $( that doesn't end")
        depth += {"(": 1, ")": -1}.get(text[place], 0)
        place += 1
    return place


@functools.cache
def compiled(hole):
    return compile(hole, "$(..)", "eval")


def filled(text, values):
    """The text with each $(..) in it computed over the values."""
    parts, place = [], 0
    while (begin := text.find("$(", place)) >= 0:
        end = end_of_hole(text, begin + 2)
        hole = text[begin + 2 : end - 1]
        try:
            parts += [text[place:begin], str(eval(compiled(hole), {"__builtins__": CALLS}, values))]
        except Exception as error:
            raise Fault(f"$({hole}): {error}") from error
        place = end
    return "".join(parts) + text[place:]


def unescaped(text):
    """The bytes of a text in which \\r, \\n, \\t, \\\\ and \\xHH stand for a byte, and all else for itself in UTF-8."""
    plain = {"r": b"\r", "n": b"\n", "t": b"\t", "\\": b"\\"}
    parts = re.split(r"\\(x[0-9a-f]{2}|.)", text)
    return b"".join(
        part.encode() if place % 2 == 0 else bytes.fromhex(part[1:]) if part[0] == "x" and len(part) == 3 else plain[part]
        for place, part in enumerate(parts)
    )


class Reader:
    """Reads the lines of one case with the values of one row."""

    def __init__(self, case, values):
        self.case = case
        self.values = values
        self.done = []
        # What further input, and further output, goes to the end of.
        self.given = self.wanted = None
        self.marks = {
            "$": self.run, "$\\": self.run_of_bytes, "?": self.request, "!": self.reply, "&": self.told_line, "=": self.status,
            "%": self.statement, "+": self.record,
        }
        for form in ("", "\\", "@"):
            self.marks[f"<{form}"] = functools.partial(self.give, form)
            self.marks[f">{form}"] = functools.partial(self.want, form)

    def steps(self):
        self.block(self.case.lines, self.values)
        if not any(isinstance(step, Run) for step in self.done):
            raise Fault(f"{self.case.file}:{self.case.line}: nothing is run")
        return self.done

    def block(self, lines, values):
        place = 0
        while place < len(lines):
            number, text = lines[place]
            mark, _, rest = text.partition(" ")
            try:
                if mark == "each":
                    end = place + self.length_of_block(lines[place:])
                    name, first, last = filled(rest, values).split()
                    for n in range(int(first), int(last) + 1):
                        self.block(lines[place + 1 : end], {**values, name: n})
                    place = end
                else:
                    self.marks[mark](number, filled(rest, values))
            except (Fault, KeyError, ValueError, IndexError, OSError) as error:
                raise Fault(f"{self.case.file}:{number}: {text[:80]!r}: {type(error).__name__} {error}") from error
            place += 1

    @staticmethod
    def length_of_block(lines):
        depth = 0
        for place, (_, text) in enumerate(lines):
            depth += text.startswith("each ") - (text == "end")
            if depth == 0:
                return place
        raise Fault("`each` without `end`")

    def run_of_bytes(self, number, text):
        self.run(number, text)
        self.done[-1].words = [os.fsdecode(unescaped(word)) for word in self.done[-1].words]

    def run(self, _, text):
        words, read_from, write_to = shlex.split(text), None, None
        while len(words) > 1 and words[-2] in ("<", ">"):
            if words[-2] == "<":
                read_from = words[-1]
            else:
                write_to = words[-1]
            del words[-2:]
        self.done.append(Run(words, read_from, write_to, told=[] if self.case.needs_launcher else None))
        self.given = self.wanted = None

    def content(self, form, text):
        """The bytes that a line of input or of output stands for, by the form of its mark."""
        if form == "@":
            return (self.case.file.parent / text).read_bytes()
        return unescaped(text) if form else text.encode() + b"\n"

    def give(self, form, number, text):
        if self.given is None:
            self.given = Plain(number)
            self.done[-1].given.append(self.given)
        self.given.text += self.content(form, text)

    def request(self, number, text):
        method, target, *body = text.split(" ", 2)
        head = f"{method} {target} HTTP/1.1\r\nContent-Length: {{length}}\r\n\r\n"
        self.given = Message(number, bytearray("".join(body).encode()), head)
        self.done[-1].given.append(self.given)

    def reply(self, number, text):
        status, *lines = text.split("; ")
        head = REPLY_HEAD.replace("{status}", status).replace("{lines}", "".join(f"{line}\r\n" for line in lines))
        self.wanted, self.given = Message(number, head=head), None
        self.done[-1].wanted.append(self.wanted)

    def want(self, form, number, text):
        if self.wanted is None:
            self.wanted = Plain(number)
            self.done[-1].wanted.append(self.wanted)
        self.wanted.text += self.content(form, text)

    def told_line(self, _, text):
        self.done[-1].told = [*(self.done[-1].told or []), text]

    def status(self, _, text):
        self.done[-1].status = int(text)

    def statement(self, _, text):
        database, statement = text.split(" ", 1)
        self.done.append(Step(database, statement))

    def record(self, _, text):
        database, kind, code, *body = text.split(" ", 3)
        statement = "insert or replace into record values (?, ?, ?)"
        self.done.append(Step(database, statement, (int(kind), unescaped(code), unescaped("".join(body)))))


def read_head(case, text):
    """Takes a line that says how the case is tried. False where the line is another."""
    mark, _, rest = text.partition(" ")
    if mark == "with":
        case.names = rest.split()
    elif mark == "-":
        case.rows.append(tuple(it.strip() for it in re.split(r"(?:^|(?<=\s))\|(?=\s|$)", rest)))
        if len(case.rows[-1]) != len(case.names):
            raise Fault(f"{len(case.names)} values are wanted")
    elif mark == "cut":
        case.cuts = [int(it) for it in rest.split()]
    elif text == "long":
        case.is_long = True
    elif text == "launcher":
        case.needs_launcher = True
    elif text == "program":
        case.is_of_program = True
    else:
        return False
    return True


def read_cases(file):
    """The cases of a file, in order."""
    cases = []
    for number, line in enumerate(file.read_text(encoding="utf-8").split("\n"), 1):
        text = line.strip()
        if not text or text.startswith("#"):
            continue
        if text.startswith("case "):
            cases.append(Case(file, number, text[5:]))
        elif not cases:
            raise Fault(f"{file}:{number}: no case is begun")
        else:
            try:
                if cases[-1].lines or not read_head(cases[-1], text):
                    cases[-1].lines.append((number, text))
            except (Fault, ValueError) as error:
                raise Fault(f"{file}:{number}: {error}") from error
    for case in cases:
        if case.names and not case.rows:
            raise Fault(f"{file}:{case.line}: there are names and no row")
    titles = [case.title for case in cases]
    for one, other in itertools.pairwise(sorted(titles)):
        if one == other:
            raise Fault(f"{file}: two cases are named {one!r}")
    return cases
