"""A connection to a desk, over HTTP at a port of this machine or to a session over a store.

    with Connection.at_port(7171) as desk:
        desk.enter({"edit": "part", "ticket": "erp-1", "code": "CABLE", "kind": "article", "name": "Cable"})
        print(desk.part("CABLE").mass)

A request is sent again, as it was and on a new connection, where a connection breaks before its reply, and after the statuses 503 and
507. So an edit is sent again with the ticket that it had, and acts once.
"""
import dataclasses
import datetime
import http.client
import json
import pathlib
import re
import subprocess
import time

from client import answers
from client.law import Kind

TRIES = 6
# The seconds before the second try; before each further one twice as many.
FIRST_PAUSE = 0.1
# The most seconds that a reply may take.
PATIENCE = 300
STATUSES_TO_SEND_AGAIN = (503, 507)


class DeskFault(Exception):
    """What kept a request from an answer."""


class NoDesk(DeskFault):
    """No desk answers: nobody is at the port, the session doesn't start, or it broke off each time."""


class RequestFault(DeskFault):
    """The desk answered with another status than 200. `words` are the desk's line that says why, `body` is the whole of its text."""

    def __init__(self, status, body):
        self.status, self.body = status, body
        lines = body.decode(errors="replace").splitlines()
        self.words = lines[-1] if lines else ""
        super().__init__(f"{status} {self.words}")


class Refused(RequestFault):
    """An edit breaks a rule (409): the desk has changed nothing."""


class NoSuchCode(RequestFault):
    """The desk keeps nothing of the code, or it is no product (404)."""


@dataclasses.dataclass(frozen=True)
class Accepted:
    """The reply to an edit, as its three lines say it. `body` is as it came."""

    body: bytes
    version: int
    seen: int
    number: int
    # Whether the edit was there before: its ticket was sent earlier, and it changed nothing now.
    was_known: bool


class _Broken(Exception):
    """The connection ended before the reply was whole."""


class _Port:
    """A connection over HTTP to 127.0.0.1."""

    def __init__(self, port):
        self.port, self.connection = port, None

    def exchange(self, method, target, body):
        """The status and the body of the reply."""
        if self.connection is None:
            self.connection = http.client.HTTPConnection("127.0.0.1", self.port, timeout=PATIENCE)
        try:
            self.connection.request(method, target, body)
            reply = self.connection.getresponse()
            return reply.status, reply.read()
        except (OSError, http.client.HTTPException) as fault:
            self.close()
            raise _Broken(f"no answer from 127.0.0.1:{self.port}: {fault or type(fault).__name__}") from fault

    def close(self):
        if self.connection is not None:
            self.connection.close()
            self.connection = None


class _Session:
    """A session that this client runs itself."""

    def __init__(self, program, store):
        self.words = [str(program), "session", *(["--store", str(store)] if store else [])]
        self.process = None

    def exchange(self, method, target, body):
        """The status and the body of the reply."""
        if self.process is None:
            self.process = subprocess.Popen(self.words, stdin=subprocess.PIPE, stdout=subprocess.PIPE, bufsize=-1)
        length = "" if body is None else f"Content-Length: {len(body)}\r\n"
        try:
            self.process.stdin.write(f"{method} {target} HTTP/1.1\r\n{length}\r\n".encode() + (body or b""))
            self.process.stdin.flush()
        except BrokenPipeError:
            pass  # It has ended, and may have said why.
        return self.reply()

    def reply(self):
        """The next reply of the session."""
        first = self.process.stdout.readline()
        if not first.startswith(b"HTTP/"):
            self.close()
            if first.startswith(b"desk: "):
                raise NoDesk(_why_no_session(first.decode(errors="replace").strip(), self.words))
            raise _Broken(f"`{' '.join(self.words)}` broke off")
        length = 0
        for line in iter(self.process.stdout.readline, b"\r\n"):
            name, _, value = line.decode(errors="replace").partition(":")
            if name.lower() == "content-length":
                length = int(value)
            if not line:
                break
        body = self.process.stdout.read(length)
        if len(body) != length:
            self.close()
            raise _Broken(f"`{' '.join(self.words)}` broke off inside a reply")
        return int(first.split()[1]), body

    def close(self):
        if self.process is None:
            return
        process, self.process = self.process, None
        try:
            process.stdin.close()
        except BrokenPipeError:
            pass
        process.stdout.read()
        process.stdout.close()
        process.wait()


def _why_no_session(line, words):
    causes = {
        "desk: store": "the store can't be opened; another desk may have it, and then give the port of that one",
        "desk: words": "it doesn't take these words",
        "desk: memory": "there is no memory",
    }
    cause = causes.get(line, "its records aren't those of a sound desk" if line.startswith("desk: damaged") else "")
    return f"`{' '.join(words)}` says `{line}`{f': {cause}' if cause else ''}"


class Connection:
    """One connection to a desk. Its calls raise `DeskFault`, and `answers.UnreadableAnswer` where an answer has another form."""

    def __init__(self, carrier, tries=TRIES):
        self.carrier, self.tries = carrier, tries
        # The greatest `version` that this connection was told, or None before its first answer.
        self.told = None

    @classmethod
    def at_port(cls, port, tries=TRIES):
        """A connection to the desk that `desk serve --port PORT` serves on this machine."""
        return cls(_Port(port), tries)

    @classmethod
    def over_store(cls, store, program, tries=TRIES):
        """A session of this program over the store of this name; nobody else has the store meanwhile. None is a desk in memory."""
        if not pathlib.Path(program).is_file():
            raise NoDesk(f"there is no program {program}")
        return cls(_Session(program, store), tries)

    def __enter__(self):
        return self

    def __exit__(self, *_):
        self.close()

    def close(self):
        """Ends the connection, and the session where it is one. A further call opens another."""
        self.carrier.close()

    def request(self, method, target, body=None):
        """Sends a request, again where need be: the status and the body of its reply."""
        pause = FIRST_PAUSE
        for left in range(self.tries - 1, -1, -1):
            try:
                status, reply = self.carrier.exchange(method, target, body)
                if status not in STATUSES_TO_SEND_AGAIN or not left:
                    return status, reply
            except _Broken as fault:
                if not left:
                    raise NoDesk(f"{fault} (tried {self.tries} times)") from fault
            time.sleep(pause)
            pause *= 2
        raise AssertionError("the last try returns or raises")

    def ask(self, target):
        """The bytes of the answer to a question, by its path and query."""
        return self._body_of(*self.request("GET", target))

    def enter(self, edit):
        """Makes an edit, given as a dictionary with its `edit`, its `ticket` and its other keys: `Accepted`, or raises `Refused`."""
        return self.enter_json(json.dumps(edit).encode())

    def enter_json(self, text):
        """Makes the edit that these bytes of JSON are."""
        return self._change("/edit", text)

    def declare(self, text):
        """Enters a declaration, given as the bytes of its CSV: `Accepted`, or raises `Refused`."""
        return self._change("/declare", text)

    def _change(self, target, text):
        before = self.version() if self.told is None else self.told
        body = self._body_of(*self.request("POST", target, text))
        version, seen, number = (int(line.split()[1]) for line in body.decode().splitlines())
        return Accepted(body, version, seen, number, number <= before)

    def _body_of(self, status, body):
        found = re.match(rb"version (\d+)\n", body)
        if found:
            self.told = max(self.told or 0, int(found[1]))
        if status == 200:
            return body
        raise {409: Refused, 404: NoSuchCode}.get(status, RequestFault)(status, body)

    def version(self):
        """How many edits the desk has accepted."""
        return answers.version_of(self.ask("/version"))

    def rohs(self, code, day):
        return answers.rohs_of(self.ask(f"/rohs/{code}?day={_iso(day)}"))

    def article33(self, code, day):
        return answers.duties_of(self.ask(f"/article33/{code}?day={_iso(day)}"))

    def article7(self, year, day):
        return answers.notices_of(self.ask(f"/article7/{year}?day={_iso(day)}"))

    def part(self, code):
        return answers.part_of(self.ask(f"/part/{code}"))

    def uses(self, code):
        return answers.uses_of(self.ask(f"/uses/{code}"))

    def material(self, code, kind, day):
        return answers.material_of(self.ask(f"/material/{code}?kind={_code(kind)}&day={_iso(day)}"))

    def summary(self, day):
        return answers.summary_of(self.ask(f"/summary?day={_iso(day)}"))


def _iso(day):
    return day.isoformat() if isinstance(day, datetime.date) else day


def _code(kind):
    return kind.value if isinstance(kind, Kind) else kind
