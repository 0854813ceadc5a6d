"""Tests of the page of `bin/desk-client page`: as HTTP gives it, and as Chromium shows it, at two widths and by the keyboard alone."""
import base64
import contextlib
import functools
import html
import http.client
import json
import os
import re
import select
import shutil
import signal
import socket
import subprocess
import time
import urllib.parse

from desk_client import CLIENT, DAY, fill, lacks, put, ran
from serving import PATIENCE, Server, differs, room
from served import free_port

BROWSERS = ("chromium", "chromium-browser", "google-chrome")
# The widths, in pixels, at which the page is looked at.
WIDE, NARROW = 1280, 360


def browser():
    """The browser of this machine, or None."""
    return next((found for name in BROWSERS if (found := shutil.which(name))), None)


@contextlib.contextmanager
def served(program, folder, *words):
    """The page over a store of the folder, or as the words say: its port."""
    port = free_port()
    words = words or ("--store", "g.db")
    command = [CLIENT, "page", "--port", str(port), "--program", program[0], *map(str, words)]
    process = subprocess.Popen(command, cwd=folder, stdin=subprocess.DEVNULL, stdout=subprocess.PIPE)
    try:
        told = process.stdout.readline().decode()
        if told != f"desk-client: the page is at http://127.0.0.1:{port}/\n":
            raise RuntimeError(f"the page says {told!r}")
        yield port
    finally:
        process.terminate()
        process.communicate()


def got(port, path, method="GET", host=None, **query):
    """The status of a reply, its text, and its head."""
    connection = http.client.HTTPConnection("127.0.0.1", port, timeout=PATIENCE)
    with contextlib.closing(connection):
        connection.request(method, f"{path}?{urllib.parse.urlencode(query)}", headers={"Host": host} if host else {})
        reply = connection.getresponse()
        return reply.status, reply.read().decode(), reply.headers


def texts_of(page):
    """The desk's texts beside a view."""
    return [html.unescape(text) for text in re.findall(r'<pre tabindex="0" class="desk">(.*?)</pre>', page, re.S)]


ROHS = (
    "version 19\nproduct GATEWAY kind 3 day 2024-07-22 mass 102000000\nover BRASS lead share 60000000000 limit 2000000000 exempt 6(c) row III-6C\n"
    "over PVC dehp share 15000000000 limit 5000000000 breach\nchain GATEWAY CABLE PVC\nnot-compliant\n"
)


def shows_each_view(program):
    """Products, a bill with its breach and the chain opened, a part, a material, notifications and search, with the desk's text beside them."""
    with room() as folder:
        fill(program, folder / "g.db")
        with served(program, folder) as port:
            _, products, head = got(port, "/", day=DAY)
            _, product, _ = got(port, "/product", code="GATEWAY", day=DAY)
            _, part, _ = got(port, "/part", code="CABLE", day=DAY)
            _, material, _ = got(port, "/material", code="PVC", day=DAY)
            _, notices, _ = got(port, "/article7", year=2024, day="2024-12-31")
            searches = [got(port, "/search", q=text, day=DAY)[1] for text in ("gate", "DEHP", "sheath", "PIN")]
    hits = [re.findall(r'<li><a href="/(\w+)\?code=(\w+)', text) for text in searches]
    opened = re.findall(r"<details( open)?><summary>(?:\d+ × )?<a href=[^>]*>(\w+)</a>", product)
    return (
        lacks("products", products, "GATEWAY</a></td><td>3: IT and telecommunications</td>", "not compliant</strong></td><td>1 breach</td><td>2 duties</td>")
        or lacks("the product", product, "breach: dehp 3000 ppm of at most 1000 ppm</strong>", "exempt: lead 30000 ppm of at most 1000 ppm</strong>")
        or differs("what is opened", opened, [(" open", "GATEWAY"), ("", "BOARD"), ("", "PIN"), (" open", "CABLE")])
        or differs("the desk's text", texts_of(product)[0], ROHS)
        or lacks("the part", part, "It carries 15 mg of the candidate dehp.", "GATEWAY</a>") or lacks("the material", material, "breach  dehp 3000 ppm of at most 1000 ppm")
        or lacks("the notifications", notices, "lead by 2018-12-27: 1.2 t")
        or differs("the hits", hits, [[("part", "GATEWAY")], [("material", "PVC")], [("material", "PVC")], [("material", "BRASS"), ("part", "PIN")]])
        or lacks("the head", head["Content-Security-Policy"], "default-src 'none'")
        or differs("resources of others", re.findall(r'(?:src|href)="(?!/|#|data:)[^"]*"', products + product), [])
    )


def escapes_every_text(program):
    """Names with tags, and whatever a query says, are shown as they are written, and are no tags."""
    name = "<script>alert(1)</script><b>&\"'"
    with room() as folder:
        fill(program, folder / "g.db")
        put(folder, parts_jsonl=json.dumps({"edit": "part", "code": "CABLE", "kind": "article", "name": name}) + "\n")
        ran(program, folder, "enter", "parts.jsonl", "--store", "g.db")
        with served(program, folder) as port:
            pages = [
                got(port, "/product", code="GATEWAY", day=DAY)[1], got(port, "/part", code="CABLE", day=DAY)[1], got(port, "/search", q=name, day=DAY)[1],
                got(port, "/part", code=name, day=DAY)[1], got(port, "/", day=name)[1], got(port, "/article7", year=name, day=DAY)[1],
            ]
    for page in pages:
        if "<script" in page or "<b>" in page:
            return f"a tag of a name is one of the page: {page[:300]}"
    return differs("pages with the name", [html.escape(name) in page for page in pages], [True, True, True, True, True, False])


def refuses_what_it_is_not_for(program):
    """Another name than that of this machine, another method, another address, words of no form and unknown codes are refused."""
    with room() as folder:
        fill(program, folder / "g.db")
        with served(program, folder) as port:
            found = [
                got(port, "/", host="evil.example")[0], got(port, "/", host=f"localhost:{port}", day=DAY)[0], got(port, "/", method="POST")[0], got(port, "/nix")[0],
                got(port, "/part", code="A B")[0], got(port, "/part", code="NIX")[0], got(port, "/product", code="PIN", day=DAY)[0],
                got(port, "/", day="2013-01-01")[0], got(port, "/article7", year="1999")[0], got(port, "/../client/page.py")[0],
            ]
            with contextlib.suppress(OSError), socket.create_connection(("127.0.0.2", port), timeout=5):
                found.append("it listens at another address")
    return differs("the statuses", found, [403, 200, 501, 404, 400, 404, 404, 400, 400, 404])


def follows_a_served_desk(program):
    """Over a port it shows what others enter meanwhile, leaves the seat free between two views, and says what a search can't see."""
    with room() as folder, Server(program, "--seats", "1") as server:
        put(folder, a_csv="code,kind,name\nA,assembly,First\n", b_csv="code,kind,name\nA,assembly,Second\n", p_csv="product,kind\nA,3\n")
        with served(program, folder, "--desk", server.port) as port:
            names = []
            for file in ("a.csv", "b.csv"):
                ran(program, folder, "enter", file, "p.csv", "--desk", server.port)
                names.append(re.findall(r"<h1>(.*?)</h1>", got(port, "/part", code="A", day=DAY)[1])[0])
            found = got(port, "/search", q="sec", day=DAY)[1]
            server.stop()
            gone = got(port, "/", day=DAY)
    return differs("the names", names, ["A, First", "A, Second"]) or lacks("the search", found, "1 hit", "as no question lists it") or (
        differs("without a desk", gone[0], 502) or lacks("without a desk", gone[1], "The desk can&#x27;t be asked")
    )


# ---- in a browser


class Chromium:
    """A headless Chromium with one tab, which is told what to do through two pipes."""

    def __init__(self, folder):
        ours_in, theirs_out = os.pipe()
        theirs_in, ours_out = os.pipe()
        words = [
            browser(), "--headless", "--no-sandbox", "--disable-gpu", "--no-first-run", "--disable-dev-shm-usage", f"--user-data-dir={folder}/profile",
            "--remote-debugging-pipe", "about:blank",
        ]
        # (the browser reads its orders at 3 and writes at 4)
        command = ["bash", "-c", f'exec "$@" 3<&{theirs_in} 4>&{theirs_out}', "bash", *words]
        quiet = {"stdin": subprocess.DEVNULL, "stdout": subprocess.DEVNULL, "stderr": subprocess.DEVNULL}
        # (a group of its own, so that all its processes can be ended)
        self.process = subprocess.Popen(command, pass_fds=(theirs_in, theirs_out), start_new_session=True, **quiet)
        self.profile = folder / "profile"
        os.close(theirs_in)
        os.close(theirs_out)
        self.reading, self.writing, self.rest, self.number, self.session = ours_in, ours_out, b"", 0, None
        target = self.call("Target.createTarget", url="about:blank")["targetId"]
        self.session = self.call("Target.attachToTarget", targetId=target, flatten=True)["sessionId"]
        self.call("Page.enable")

    def call(self, method, **given):
        """Gives an order, and waits for what comes of it."""
        self.number += 1
        message = {"id": self.number, "method": method, "params": given, **({"sessionId": self.session} if self.session else {})}
        os.write(self.writing, json.dumps(message).encode() + b"\0")
        while True:
            reply = self.message()
            if reply.get("id") == self.number:
                if "error" in reply:
                    raise RuntimeError(f"{method}: {reply['error']}")
                return reply["result"]

    def message(self):
        """The next message of the browser."""
        while b"\0" not in self.rest:
            if not select.select([self.reading], [], [], PATIENCE)[0]:
                raise TimeoutError("the browser says nothing")
            piece = os.read(self.reading, 65536)
            if not piece:
                raise ConnectionError("the browser has ended")
            self.rest += piece
        text, _, self.rest = self.rest.partition(b"\0")
        return json.loads(text)

    def value(self, expression):
        """What an expression of JavaScript comes to in the tab."""
        return self.call("Runtime.evaluate", expression=expression, returnByValue=True)["result"].get("value")

    def wait_for(self, expression):
        """Waits until an expression is true in the tab."""
        ends = time.monotonic() + PATIENCE
        while self.value(expression) is not True:
            if time.monotonic() > ends:
                raise TimeoutError(f"`{expression}` doesn't come true")
            time.sleep(0.05)

    def open(self, url, width):
        """Opens a page in a window of this width."""
        self.call("Emulation.setDeviceMetricsOverride", width=width, height=900, deviceScaleFactor=1, mobile=False)
        self.call("Page.navigate", url=url)
        self.wait_for(f"location.href == {json.dumps(url)} && document.readyState == 'complete'")

    def press(self, key, text=None):
        """Presses a key and lets it go."""
        codes = {"Tab": 9, "Enter": 13, " ": 32}
        given = {"key": key, "code": {" ": "Space"}.get(key, key), "windowsVirtualKeyCode": codes.get(key, 0), **({"text": text} if text else {})}
        self.call("Input.dispatchKeyEvent", type="keyDown", **given)
        self.call("Input.dispatchKeyEvent", type="keyUp", **given)

    def tab_to(self, condition):
        """Presses Tab until this is true of the element with the focus."""
        for _ in range(60):
            self.press("Tab")
            if self.value(f"(it => {condition})(document.activeElement)") is True:
                return
        raise RuntimeError(f"no element with the focus fits `{condition}`")

    def end(self):
        os.close(self.writing)
        os.close(self.reading)
        os.killpg(self.process.pid, signal.SIGKILL)
        self.process.wait()
        # What one of its processes writes while it ends may stand in the way of the first tries.
        for _ in range(50):
            shutil.rmtree(self.profile, ignore_errors=True)
            if not self.profile.exists():
                return
            time.sleep(0.1)


def in_browser(test):
    """Gives a test a browser, and the address of a page over the gateway."""

    @functools.wraps(test)
    def call(program):
        with room() as folder:
            fill(program, folder / "g.db")
            with served(program, folder) as port:
                tab = Chromium(folder)
                try:
                    return test(tab, f"http://127.0.0.1:{port}")
                finally:
                    tab.end()

    return call


@in_browser
def fits_two_widths(tab, address):
    """At a wide and a narrow window nothing sticks out sideways, and the desk's text stands beside the view, and below it."""
    found = []
    for width in (WIDE, NARROW):
        for path in (f"/product?code=GATEWAY&day={DAY}", f"/?day={DAY}"):
            tab.open(address + path, width)
            sticks_out = tab.value("document.documentElement.scrollWidth > document.documentElement.clientWidth")
            is_beside = tab.value("document.querySelector('aside').getBoundingClientRect().top < document.querySelector('main').getBoundingClientRect().bottom")
            picture = base64.b64decode(tab.call("Page.captureScreenshot")["data"])
            found.append((sticks_out, is_beside, picture.startswith(b"\x89PNG")))
    return differs("what is seen", found, [(False, True, True)] * 2 + [(False, False, True)] * 2)


@in_browser
def shows_the_desks_bytes(tab, address):
    """The text that a person copies from the page is the desk's, and the style is in force."""
    tab.open(f"{address}/product?code=GATEWAY&day={DAY}", WIDE)
    text = tab.value("document.querySelector('pre.desk').textContent")
    is_styled = tab.value("getComputedStyle(document.querySelector('.columns')).display")
    return differs("the text", (text, is_styled), (ROHS, "grid"))


@in_browser
def works_by_the_keyboard(tab, address):
    """By keys alone: from the list to the product, a part of the bill opened and closed, and a search that leads to a material."""
    tab.open(f"{address}/?day={DAY}", WIDE)
    tab.press("Tab")
    first = tab.value("document.activeElement.textContent")
    tab.tab_to("it.textContent == 'GATEWAY'")
    tab.press("Enter", "\r")
    tab.wait_for("location.pathname == '/product' && document.readyState == 'complete'")
    tab.tab_to("it.tagName == 'SUMMARY' && it.textContent.includes('BOARD')")
    opened = []
    for _ in range(2):
        tab.press(" ", " ")
        opened.append(tab.value("document.activeElement.parentElement.open"))
    outline = tab.value("getComputedStyle(document.activeElement).outlineStyle")
    tab.open(f"{address}/?day={DAY}", WIDE)
    tab.tab_to("it.name == 'q'")
    tab.call("Input.insertText", text="sheath")
    tab.press("Enter", "\r")
    tab.wait_for("location.pathname == '/search' && document.readyState == 'complete'")
    hits = tab.value("document.querySelector('main').textContent.includes('1 hit')")
    return differs("what comes of the keys", (first, opened, outline, hits), ("To the contents", [True, False], "solid", True))


IN_BROWSER = (fits_two_widths, shows_the_desks_bytes, works_by_the_keyboard)
TESTS = (shows_each_view, escapes_every_text, refuses_what_it_is_not_for, follows_a_served_desk)


def left_out():
    """What is missing here, and how many tests are left out without it."""
    if browser() is None:
        yield "Chromium", len(IN_BROWSER)


def tests(program):
    """The tests: a name, a function that gives what is wrong or None, and what it is given."""
    for test in (*TESTS, *(IN_BROWSER if browser() else ())):
        yield f"page: {test.__doc__.splitlines()[0]}", test, (program,)
