"""Asks a question by its name, and shows the desk's text whole, with a reading above it whose lines begin with `#`."""
import dataclasses
import typing

from client import answers, reading
from client.desk import NoSuchCode


@dataclasses.dataclass(frozen=True)
class Question:
    """A question: its words, what makes its target of them, what reads its answer, and what makes lines of that for a person."""

    words: tuple[str, ...]
    target: str
    answer: typing.Callable
    read: typing.Callable


def _reading(read):
    """A reading that needs the answer alone, and not the words of the question."""
    return lambda looker, answer, words: read(looker, answer)


QUESTIONS = {
    "rohs": Question(("code", "day"), "/rohs/{code}?day={day}", answers.rohs_of, _reading(reading.rohs)),
    "article33": Question(("code", "day"), "/article33/{code}?day={day}", answers.duties_of, _reading(reading.article33)),
    "article7": Question(("year", "day"), "/article7/{year}?day={day}", answers.notices_of, _reading(reading.article7)),
    "part": Question(("code",), "/part/{code}", answers.part_of, _reading(reading.part)),
    "uses": Question(("code",), "/uses/{code}", answers.uses_of, _reading(reading.uses)),
    "material": Question(("code", "kind", "day"), "/material/{code}?kind={kind}&day={day}", answers.material_of, reading.material),
    "summary": Question(("day",), "/summary?day={day}", answers.summary_of, _reading(reading.summary)),
}


class Nothing(Exception):
    """The desk keeps nothing of the code, and `body` is its text."""

    def __init__(self, body):
        super().__init__(body.decode().splitlines()[-1])
        self.body = body


def asked(looker, name, words):
    """The desk's text in bytes and the lines of its reading. Raises `Nothing`."""
    question = QUESTIONS[name]
    try:
        body = looker.desk.ask(question.target.format_map(words))
    except NoSuchCode as fault:
        raise Nothing(fault.body) from fault
    try:
        lines = list(question.read(looker, question.answer(body), words))
    except answers.UnreadableAnswer as fault:
        return body, [f"No reading: {fault}"]
    version = answers.version_in(body)
    if looker.desk.told != version:
        lines.append(f"The desk was changed while this was read, and has {looker.desk.told} edits by now: ask again.")
    return body, lines
