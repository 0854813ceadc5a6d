"""What the scripts share that talk to the desk: requests as bytes, replies read from a stream, connections, runs of the
program, records of a store."""
import collections
import io
import json
import socket
import sqlite3
import struct
import subprocess
import time

# A reply: its status, the further lines of its head, its body, and all of it as it came.
Reply = collections.namedtuple("Reply", "status lines body text")
# A run that ended: its status, or None where it was killed, what it wrote, and how many seconds it took.
Ran = collections.namedtuple("Ran", "status wrote seconds")


def message(method, target, body=None, lines=(), version="1.1"):
    """One request, as bytes."""
    length = [] if body is None else [f"Content-Length: {len(body)}"]
    head = [f"{method} {target} HTTP/{version}", *lines, *length, "", ""]
    return "\r\n".join(head).encode() + (body or b"")


def question(target):
    return message("GET", target)


def edit(word, ticket, **fields):
    return message("POST", "/edit", json.dumps({"edit": word, "ticket": ticket, **fields}).encode())


def part(ticket, code):
    """The plainest edit: an article of its own."""
    return edit("part", ticket, code=code, kind="article", name="Part")


def declare(text):
    return message("POST", "/declare", text.encode())


def reply(stream):
    """The next whole reply, or None where the stream ends before or inside it."""
    lines = []
    for line in iter(stream.readline, b"\r\n"):
        if not line.endswith(b"\r\n"):
            return None
        lines.append(line)
    if not lines:
        return None
    further = [line.decode().removesuffix("\r\n") for line in lines[1:]]
    named = dict(line.split(": ", 1) for line in further)
    length = int(named.get("Content-Length", 0))
    body = stream.read(length)
    if len(body) != length:
        return None
    return Reply(int(lines[0].split()[1]), further, body, b"".join([*lines, b"\r\n", body]))


def replies_of(stream):
    """All whole replies of a stream."""
    return list(iter(lambda: reply(stream), None))


def replies(wrote):
    """All whole replies in what a session wrote."""
    return replies_of(io.BytesIO(wrote))


def number(told):
    """The number in the reply to an accepted edit."""
    words = told.body.split()
    return int(words[words.index(b"accepted") + 1])


def over(store):
    """The words that name a store, or none."""
    return [] if store is None else ["--store", str(store)]


def run(program, words, given=b"", before=(), limit=None, **options):
    """Runs the program to its end, by the command `before`; it is killed after `limit` seconds. What bin/desk explains isn't shown."""
    began = time.monotonic()
    options.setdefault("stderr", subprocess.DEVNULL)
    try:
        ran = subprocess.run([*before, program, *words], input=given, stdout=subprocess.PIPE, timeout=limit, **options)
        return Ran(ran.returncode, ran.stdout, time.monotonic() - began)
    except subprocess.TimeoutExpired as ended:
        return Ran(None, ended.stdout or b"", time.monotonic() - began)


def session(program, stream, store=None, **options):
    """Runs a whole session."""
    return run(program, ["session", *over(store)], stream, **options)


class Session:
    """A session that stays open, where a request may wait for the reply to the one before."""

    def __init__(self, program, store=None, before=()):
        self.process = subprocess.Popen([*before, program, "session", *over(store)], stdin=subprocess.PIPE, stdout=subprocess.PIPE)

    def send(self, request):
        self.process.stdin.write(request)
        self.process.stdin.flush()

    def reply(self):
        return reply(self.process.stdout)

    def say(self, request):
        self.send(request)
        return self.reply()

    def end(self):
        """Ends the input, and gives the status and what was still written."""
        self.process.stdin.close()
        rest = self.process.stdout.read()
        self.process.stdout.close()
        return self.process.wait(), rest


class Connection:
    """A connection to a server at a port of this machine."""

    def __init__(self, port, patience=60):
        self.socket = socket.create_connection(("127.0.0.1", port), timeout=patience)
        self.stream = self.socket.makefile("rb")

    def send(self, request):
        self.socket.sendall(request)

    def reply(self):
        """The next whole reply, or None where the connection ends before it."""
        return reply(self.stream)

    def say(self, request):
        self.send(request)
        return self.reply()

    def close(self):
        self.stream.close()
        self.socket.close()

    def reset(self):
        """Breaks it off, so that the other side is told at once and what is under way is lost."""
        self.socket.setsockopt(socket.SOL_SOCKET, socket.SO_LINGER, struct.pack("ii", 1, 0))
        self.close()

    def __enter__(self):
        return self

    def __exit__(self, *_):
        self.close()


def records(store):
    """The records of a store in order, as SQLite reads them."""
    base = sqlite3.connect(store)
    try:
        return base.execute("select kind, code, body from record order by kind, code").fetchall()
    finally:
        base.close()
