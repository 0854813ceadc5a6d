"""The examples of the repository as tests: each has to be answered as its file says.

An example is a file NAME.csv with the input, NAME.words with the words, and NAME.expected with the answer, or with the line of a
refusal, which goes with status 6. A folder of the examples with a file replies.txt is a desk: enter.txt, ask.txt and correct.txt name
its requests, and replies.txt has what scripts/replies shows of the answers. The walk of examples/acme is a document (documents.py).
"""
import pathlib
import subprocess
import tempfile

top = pathlib.Path(__file__).resolve().parent.parent
folder = top / "examples"
PARTS = ("enter.txt", "ask.txt", "correct.txt")


def written(words, given=b""):
    """What a command writes that has to end with status 0, or its fault as a text."""
    ran = subprocess.run([str(word) for word in words], input=given, stdout=subprocess.PIPE)
    return ran.stdout if ran.returncode == 0 else f"`{' '.join(map(str, words))}` ends with status {ran.returncode}".encode()


def answer_fault(program, example):
    """What is wrong with the answer to an example, or None."""
    words = example.with_suffix(".words").read_text().split()
    answer = example.with_suffix(".expected").read_bytes()
    status = 6 if answer.startswith((b"bad-declaration ", b"refused ")) else 0
    ran = subprocess.run([*program, *words], input=example.read_bytes(), stdout=subprocess.PIPE)
    if (ran.returncode, ran.stdout) == (status, answer):
        return None
    return f"status {ran.returncode} in place of {status}, and {ran.stdout!r}"


class Desk:
    """A desk of the examples, as it is served by the program from a store or without one."""

    def __init__(self, program, desk):
        self.program, self.desk = program, desk

    def replies(self, *parts, store=None):
        """What scripts/replies shows of the replies to these parts of the desk."""
        stream = written([top / "scripts/requests", *(self.desk / part for part in parts)])
        words = [*self.program, "session", *(["--store", store] if store else [])]
        return written([top / "scripts/replies"], written(words, stream))

    def at_once(self, room):
        return self.replies(*PARTS)

    def from_its_store(self, room):
        return b"".join(self.replies(part, store=room / "store.db") for part in PARTS)

    def from_a_copy(self, room):
        """Entered and asked; exported, imported into another store and asked there again; and the rest there."""
        first, copy = room / "first.db", room / "copy.db"
        begun = self.replies("enter.txt", store=first)
        asked = self.replies("ask.txt", store=first)
        written([*self.program, "import", "--store", copy], written([*self.program, "export", "--store", first]))
        if self.replies("ask.txt", store=copy) != asked:
            return b"the copy answers otherwise"
        return begun + asked + self.replies("correct.txt", store=copy)


def replies_fault(serve, desk):
    """What is wrong with the replies that a way to serve a desk gives, or None."""
    with tempfile.TemporaryDirectory(prefix="desk-test.") as room:
        replies = serve(pathlib.Path(room)).split(b"\n")
    wanted = (desk / "replies.txt").read_bytes().split(b"\n")
    if replies == wanted:
        return None
    line = next((it for it, (one, other) in enumerate(zip(wanted, replies)) if one != other), min(len(wanted), len(replies)))
    return f"line {line + 1} of replies.txt is {wanted[line : line + 1]}, and the replies have {replies[line : line + 1]}"


def tests(program):
    """The tests of all examples: a name, a function that gives what is wrong or None, and what it is given."""
    for example in sorted(folder.glob("*.csv")):
        yield f"examples/{example.stem} is answered as its file says", answer_fault, (program, example)
    for desk in sorted(it.parent for it in folder.glob("*/replies.txt")):
        ways = Desk(program, desk)
        for name, serve in (
            ("in one session", ways.at_once),
            ("over a store, session by session", ways.from_its_store),
            ("by a copy that an export filled", ways.from_a_copy),
        ):
            yield f"examples/{desk.name} is answered {name}", replies_fault, (serve, desk)
