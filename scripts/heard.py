"""What connections heard that enter edits and ask at once, and whether one list of edits explains all of it.

Nothing is expected but what a session says that is fed the accepted edits in the order of their numbers, and at each version
everything that was answered at it. No answer may be 503 or 507.
"""
import collections
import threading
import time

import talk

# What a connection said and heard: its name, the request, the reply, the greatest version that any connection had heard before the
# request was sent, and when it was sent and answered.
Turn = collections.namedtuple("Turn", "line request reply floor sent came")


def number_in(reply, place, word):
    """The number behind this word, where the reply's line of this place begins with it; or None."""
    lines = reply.body.split(b"\n")
    words = lines[place].split() if place < len(lines) else []
    return int(words[1]) if len(words) == 2 and words[0] == word else None


def version(reply):
    return number_in(reply, 0, b"version")


def seen(reply):
    return number_in(reply, 1, b"seen")


def accepted(reply):
    return number_in(reply, 2, b"accepted")


def said(reply):
    """What doesn't depend on who else had asked: of an edit's reply all but `seen` and the length."""
    if reply is None:
        return b"nothing"
    if seen(reply) is None:
        return reply.text
    first, _, *rest = reply.body.split(b"\n")
    return b"%d\n" % reply.status + b"\n".join([first, *rest])


def short(request):
    """As much of a request as a person needs to see."""
    return repr(request if len(request) < 200 else request[:100] + b" .. " + request[-60:])


class Heard:
    """Collects the turns of all connections, and what they say of versions and numbers."""

    def __init__(self):
        self.lock = threading.Lock()
        self.turns = []
        # The greatest version that was heard, the number of each accepted edit, and the edit of each number.
        self.last = 0
        self.numbers = {}
        self.entries = {}

    def say(self, name, connection, request):
        """Says this on a connection of this name and notes the reply, which it gives, or None where the connection broke."""
        floor, sent = self.last, time.monotonic()
        try:
            reply = connection.say(request)
        except OSError:
            reply = None
        if reply is not None:
            with self.lock:
                self.turns.append(Turn(name, request, reply, floor, sent, time.monotonic()))
                self.last = max(self.last, version(reply) or 0)
        return reply

    def fault(self, program):
        """What is wrong with all that was heard, or None."""
        if fault := self.fault_of_lines() or self.fault_of_numbers():
            return fault
        witness = Witness(program)
        return witness.fault_of(self.turns, self.entries) or witness.end(self.last)

    def fault_of_lines(self):
        """On each connection versions never fall, and `seen` is no less than what was met there and no more than the version."""
        met = collections.defaultdict(int)
        for turn in self.turns:
            at, looked = version(turn.reply), seen(turn.reply)
            if turn.reply.status >= 500:
                return f"connection {turn.line} heard {turn.reply.status} of {short(turn.request)}"
            if at is None:
                continue
            if at < met[turn.line]:
                return f"connection {turn.line} met version {met[turn.line]} and then {at}, by {short(turn.request)}"
            if at < turn.floor:
                return f"version {turn.floor} was heard before {short(turn.request)} was sent, which got version {at}"
            if looked is not None and not met[turn.line] <= looked <= at:
                return f"connection {turn.line} met version {met[turn.line]}, and then `seen` is {looked} at version {at}"
            met[turn.line] = at
        return None

    def fault_of_numbers(self):
        """Each edit has one number, whenever it is heard, and the number is no greater than the version."""
        for turn in self.turns:
            number = accepted(turn.reply)
            if number is None:
                continue
            if self.numbers.setdefault(turn.request, number) != number:
                return f"{short(turn.request)} was accepted as {self.numbers[turn.request]} and as {number}"
            if number > version(turn.reply):
                return f"{short(turn.request)} was accepted as {number} at version {version(turn.reply)}"
            self.entries.setdefault(number, turn.request)
        return None

    def taken(self):
        """The turns so far, which are then forgotten."""
        with self.lock:
            turns, self.turns = self.turns, []
        return turns


class Witness:
    """A session that is fed the accepted edits in the order of their numbers, and at each version what was answered at it."""

    def __init__(self, program, store=None):
        self.session = talk.Session(program, store)
        self.at = 0
        # The turns at later versions, by version.
        self.waiting = collections.defaultdict(list)

    def fault_of(self, turns, entries):
        """Goes on as far as the edits of the next numbers are known: what is wrong with the replies, or None."""
        for turn in turns:
            self.waiting[version(turn.reply) or self.at].append(turn)
        while True:
            if fault := self.fault_here():
                return fault
            if self.at + 1 not in entries:
                return None
            self.at += 1
            number = (self.at, self.at - 1, self.at)
            wanted, told = b"version %d\nseen %d\naccepted %d\n" % number, self.session.say(entries[self.at])
            if told is None or told.body != wanted:
                return f"the session says {told and told.body} to {short(entries[self.at])}, and it was accepted as {self.at}"

    def fault_here(self):
        """What is wrong with the replies at this version, or None."""
        told = {}
        for turn in self.waiting.pop(self.at, ()):
            if turn.request not in told:
                told[turn.request] = said(self.session.say(turn.request))
            heard, wanted = said(turn.reply), told[turn.request]
            if heard != wanted:
                return f"connection {turn.line} heard {short(heard)} of {short(turn.request)} at version {self.at}, in place of {short(wanted)}"
        return None

    def end(self, last):
        """Ends the session: what is wrong where the list ends before the last version that was heard, or None."""
        status, rest = self.session.end()
        if (status, rest) != (0, b""):
            return f"the session ends with status {status} and {rest[:100]}"
        if self.waiting or self.at != last:
            return f"version {last} was heard, and nobody was told of edit {self.at + 1}"
        return None


def fault_of_store(program, store, other):
    """What is wrong with a store, or None where its export is that of the other."""
    kept, wanted = (talk.run(program, ["export", *talk.over(it)]) for it in (store, other))
    if kept[:2] == wanted[:2] and kept.status == 0:
        return None
    others = set(kept.wrote.split(b"\n")) ^ set(wanted.wrote.split(b"\n"))
    return f"the store ends with other records: status {kept.status}, {sorted(others)[:2]}"
