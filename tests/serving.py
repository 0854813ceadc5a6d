"""Tests of `serve`, as real clients meet it: connections over TCP on this machine, several at once."""
import concurrent.futures
import contextlib
import http.client
import io
import os
import pathlib
import queue
import random
import shutil
import signal
import socket
import subprocess
import sys
import tempfile
import threading
import time

top = pathlib.Path(__file__).resolve().parent.parent
sys.path.insert(0, str(top / "scripts"))
import talk  # noqa: E402 (the line above has to come first)
from heard import Heard, fault_of_store  # noqa: E402
from maker import Maker  # noqa: E402
from served import PATIENCE, Server  # noqa: E402

GATEWAY = top / "examples/gateway"
# As a user that owns nothing.
NOBODY = ["setpriv", "--reuid=65534", "--regid=65534", "--clear-groups"]
# It decides which requests are sent by chance, and how.
SEED = 52


class Client:
    """One connection to a server."""

    def __init__(self, port):
        self.connection = http.client.HTTPConnection("127.0.0.1", port, timeout=PATIENCE)

    def ask(self, method, target, body=None):
        """The status of the reply and its body."""
        self.connection.request(method, target, body)
        reply = self.connection.getresponse()
        return reply.status, reply.read()

    def __enter__(self):
        return self

    def __exit__(self, *_):
        self.connection.close()


def requests_in(name):
    """The requests of a file of the gateway: method, target and body."""
    for line in (GATEWAY / name).read_text().splitlines():
        method, _, rest = line.partition(" ")
        if method not in ("GET", "POST"):
            continue
        target, _, given = rest.partition(" ")
        if target == "/declare":
            yield method, target, (GATEWAY / given).read_bytes()
        else:
            yield method, target, given.encode() or None


def replies_alone(program, *names):
    """What a session answers to the requests of these files: statuses and bodies."""
    stream = b"".join(talk.message(method, target, body) for name in names for method, target, body in requests_in(name))
    ran = subprocess.run([*program, "session"], input=stream, capture_output=True, timeout=PATIENCE)
    return [(reply.status, reply.body) for reply in talk.replies_of(io.BytesIO(ran.stdout))]


def enter(client, name="enter.txt"):
    """The replies to the edits of a file, entered one after the other on one connection."""
    return [client.ask(*request) for request in requests_in(name)]


@contextlib.contextmanager
def room():
    folder = pathlib.Path(tempfile.mkdtemp(prefix="desk-test."))
    try:
        yield folder
    finally:
        shutil.rmtree(folder)


def differs(what, found, wanted):
    return None if found == wanted else f"{what}: {str(found)[:300]} in place of {str(wanted)[:300]}"


# ---- the tests


def asked_on_eight(program):
    """The gateway is entered on one connection and asked on eight others at once: each answers as a session does."""
    wanted = replies_alone(program, "enter.txt", "ask.txt")
    asked = list(requests_in("ask.txt"))

    def ask_all(port):
        with Client(port) as client:
            return [client.ask(*request) for request in asked]

    with room() as folder, Server(program, "--seats", "8", store=folder / "desk.db") as server:
        with Client(server.port) as client:
            entered = enter(client)
        if fault := differs("the edits", entered, wanted[: len(entered)]):
            return fault
        with concurrent.futures.ThreadPoolExecutor(8) as pool:
            for found in pool.map(ask_all, [server.port] * 8):
                if fault := differs("the questions", found, wanted[len(entered):]):
                    return fault
    return None


def goes_on_after_half_a_request(program):
    """A client that sends half a request and goes leaves the seat to the next."""
    with Server(program, "--seats", "1") as server:
        for piece in (b"POST /edit HTTP/1.1\r\nContent-Length: 100\r\n\r\n{", b"GET /ver", b""):
            with socket.create_connection(("127.0.0.1", server.port), timeout=PATIENCE) as gone:
                gone.sendall(piece)
            with Client(server.port) as client:
                if fault := differs(f"after {piece!r}", client.ask("GET", "/version"), (200, b"version 0\n")):
                    return fault
    return None


def answers_a_pipeline(program):
    """Requests that are sent at once, without waiting, are answered in order."""
    edits = [talk.part(f"t{number}", f"P{number}") for number in range(1, 51)]
    stream = b"".join(one + talk.question("/version") for one in edits)
    with Server(program) as server, socket.create_connection(("127.0.0.1", server.port), timeout=PATIENCE) as client:
        client.sendall(stream)
        client.shutdown(socket.SHUT_WR)
        with client.makefile("rb") as replies:
            found = [reply.body.splitlines()[-1] for reply in talk.replies_of(replies)]
    wanted = [line for number in range(1, 51) for line in (b"accepted %d" % number, b"version %d" % number)]
    return differs("the replies", found, wanted)


def is_served_again(program):
    """What was acknowledged before a stop is there when the store is served again, and an edit that is sent again has its number."""
    with room() as folder:
        for how in (signal.SIGTERM, signal.SIGINT, signal.SIGKILL):
            store = folder / f"{how.name}.db"
            with Server(program, store=store) as server, Client(server.port) as client:
                entered = enter(client)
                server.stop(how)
            with Server(program, store=store) as server, Client(server.port) as client:
                again = enter(client)
            last = [reply[1].splitlines()[-1] for reply in entered]
            if fault := differs(f"edits sent again after {how.name}", [reply[1].splitlines()[-1] for reply in again], last):
                return fault
    return None


def meets_other_seats(program):
    """An edit on one connection rests on what was entered on another."""
    with Server(program, "--seats", "2") as server, Client(server.port) as first, Client(server.port) as second:
        part = b'{"edit":"part","ticket":"t1","code":"A","kind":"article","name":"A"}'
        product = b'{"edit":"product","ticket":"t2","part":"A","kind":"3"}'
        entered = first.ask("POST", "/edit", part)
        named = second.ask("POST", "/edit", product)
    return differs("the edits", (entered, named), ((200, b"version 1\nseen 0\naccepted 1\n"), (200, b"version 2\nseen 0\naccepted 2\n")))


def ends_after_its_connections(program):
    """With a number of connections it ends once they were served, with 0 and without a word."""
    with Server(program, "--connections", "2") as server:
        for _ in range(2):
            with Client(server.port) as client:
                if fault := differs("a question", client.ask("GET", "/version"), (200, b"version 0\n")):
                    return fault
        return differs("its end", server.end(), (0, b""))


def tells_a_port_that_is_taken(program):
    """A port that another has is a fault of the doors."""
    with socket.socket() as other:
        other.bind(("127.0.0.1", 0))
        other.listen()
        with Server(program, port=other.getsockname()[1]) as server:
            return differs("its end", server.end(), (7, b"desk: doors\n"))


def tells_a_port_without_permission(program):
    """A port that its user may not open is a fault of the doors."""
    with Server([*NOBODY, *program], port=1) as server:
        return differs("its end", server.end(), (7, b"desk: doors\n"))


def ports_are_closed_to_nobody():
    """Whether a user that owns nothing may run programs here and may not open the first port."""
    if os.geteuid() != 0 or not shutil.which(NOBODY[0]):
        return False
    opens = "import socket; socket.create_server(('127.0.0.1', 1))"
    return b"PermissionError" in subprocess.run([*NOBODY, sys.executable, "-c", opens], capture_output=True).stderr


def tells_a_store_that_is_taken(program):
    """A store that is served already isn't served twice."""
    with room() as folder, Server(program, store=folder / "desk.db"), Server(program, store=folder / "desk.db") as second:
        return differs("the second's end", second.end(), (4, b"desk: store\n"))


class Writer:
    """Enters edits on one connection while others do, and sends some again: behind a broken connection, or while another sends them."""

    def __init__(self, place, heard, port, shared):
        self.name, self.heard, self.port, self.shared = f"w{place}", heard, port, shared
        self.chance = random.Random(f"{SEED} {place}")

    def enter(self, edits):
        with talk.Connection(self.port) as line:
            for edit in edits:
                self.before(edit)
                self.heard.say(self.name, line, edit)
                with contextlib.suppress(queue.Empty):
                    self.heard.say(self.name, line, self.shared.get_nowait())

    def before(self, edit):
        """What becomes of the edit before it is entered, by chance: nothing, lost on another connection, or handed to another writer."""
        way = self.chance.choice(("plain", "plain", "half", "whole", "reset", "twice"))
        if way == "twice":
            self.shared.put(edit)
        elif way != "plain":
            lost = talk.Connection(self.port)
            lost.send(edit[: len(edit) // 2] if way == "half" else edit)
            lost.reset() if way == "reset" else lost.close()


def ask_until(ended, place, heard, port):
    """Asks questions by chance until the writers have ended, and some more."""
    maker, more = Maker(f"{SEED} asker {place}"), 20
    with talk.Connection(port) as line:
        while more:
            heard.say(f"a{place}", line, maker.ask(None))
            more -= ended.is_set()
            time.sleep(0.003)


def write_and_ask(heard, port, shares, askers):
    """Enters each share on a connection, beside so many that ask; at the end all is sent once more on one connection."""
    ended, shared = threading.Event(), queue.Queue()
    with concurrent.futures.ThreadPoolExecutor(len(shares) + askers) as pool:
        asking = [pool.submit(ask_until, ended, place, heard, port) for place in range(askers)]
        writing = [pool.submit(Writer(place, heard, port, shared).enter, share) for place, share in enumerate(shares)]
        try:
            for future in writing:
                future.result()
        finally:
            ended.set()
        for future in asking:
            future.result()
    with talk.Connection(port) as line:
        for edit in (edit for share in shares for edit in share):
            heard.say("last", line, edit)


def fault_of_kept(program, heard, folder):
    """What is wrong with the store, or None where it is as another into which a session puts the accepted edits in order."""
    if not heard.entries:
        return "no edit was accepted"
    talk.session(program, b"".join(heard.entries[it] for it in sorted(heard.entries)), folder / "other.db")
    return fault_of_store(program, folder / "desk.db", folder / "other.db")


def edits_at_once(program):
    """Edits on four connections at once, some sent again on others or behind a broken one, beside two that ask: one list of edits explains each answer, and the store has just these."""
    maker, heard = Maker(SEED), Heard()
    shares = [[(maker.part, maker.edit)[place % 2](f"t{writer}-{place}") for place in range(20)] for writer in range(4)]
    with room() as folder:
        with Server(program, "--seats", "8", store=folder / "desk.db") as server:
            write_and_ask(heard, server.port, shares, 2)
        fault = heard.fault(program[0]) or fault_of_kept(program[0], heard, folder)
    return fault and f"{fault} (the seed is {SEED}, and the threads' turns differ from run to run)"


def enter_until(ended, place, heard, port):
    """Enters one declaration of many materials after the other, until the questions have been asked."""
    rows = "".join(f"M,M{place}-{it},{'N' * 150},1000\nS,M{place}-{it},lead,1\n" for it in range(200))
    with talk.Connection(port) as line:
        for number in range(1, 2_000):
            if ended.is_set():
                return
            heard.say(f"w{place}", line, talk.declare(f"D,1,S{place},{number},2024-01-23\n{rows}"))


def questions_beside_edits(program):
    """While edits of three connections wait for each other, each question on a fourth is answered at a whole list of edits."""
    heard, ended = Heard(), threading.Event()
    maker = Maker(SEED)
    with room() as folder, Server(program, store=folder / "desk.db") as server, concurrent.futures.ThreadPoolExecutor(3) as pool:
        writing = [pool.submit(enter_until, ended, place, heard, server.port) for place in range(3)]
        try:
            with talk.Connection(server.port) as line:
                for _ in range(200):
                    heard.say("asker", line, maker.ask(None))
        finally:
            ended.set()
        for future in writing:
            future.result()
    fault = heard.fault(program[0])
    return fault and f"{fault} (the seed is {SEED})"


def answers_curl(program):
    """curl asks, enters an edit and meets a refusal."""
    with Server(program, "--seats", "1") as server:
        url = f"http://127.0.0.1:{server.port}"
        part = '{"edit":"part","ticket":"t1","code":"A","kind":"article","name":"A"}'
        calls = [
            ([f"{url}/version"], "version 0\n"),
            (["-d", part, f"{url}/edit"], "version 1\nseen 0\naccepted 1\n"),
            (["-d", part, f"{url}/edit"], "version 1\nseen 1\naccepted 1\n"),
            ([f"{url}/part/A"], "version 1\npart A article mass 0\nname A\n"),
            (["-w", "%{http_code}", f"{url}/part/B"], "version 1\nno-such-code B\n404"),
        ]
        for words, wanted in calls:
            ran = subprocess.run(["curl", "-s", *words], capture_output=True, text=True, timeout=PATIENCE)
            if fault := differs(f"curl {words[-1]}", ran.stdout, wanted):
                return fault
    return None


TESTS = (
    asked_on_eight,
    goes_on_after_half_a_request,
    answers_a_pipeline,
    is_served_again,
    meets_other_seats,
    ends_after_its_connections,
    tells_a_port_that_is_taken,
    tells_a_port_without_permission,
    tells_a_store_that_is_taken,
    edits_at_once,
    questions_beside_edits,
    answers_curl,
)
# What tests need that a machine may lack, and whether it is there.
NEEDS = {
    answers_curl: ("curl", lambda: shutil.which("curl")),
    tells_a_port_without_permission: ("root, and a port that others may not open", ports_are_closed_to_nobody),
}


def is_there(test):
    """Whether the machine has what a test needs."""
    return test not in NEEDS or NEEDS[test][1]()


def title_of(test):
    return f"serve: {test.__doc__.splitlines()[0]}"


def left_out():
    """The tests that need what is not here: a name, and what it needs."""
    for test in TESTS:
        if not is_there(test):
            yield title_of(test), NEEDS[test][0]


def tests(program):
    """The tests: a name, a function that gives what is wrong or None, and what it is given."""
    for test in TESTS:
        if is_there(test):
            yield title_of(test), test, (program,)
