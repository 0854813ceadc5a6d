"""A small web page at 127.0.0.1, for one person: it asks the desk, and changes nothing."""
import datetime
import http
import http.server
import threading
import urllib.parse

from client import amounts, answers, forms, views
from client.desk import DeskFault, RequestFault
from client.law import FIRST_DAY_TO_ASK
from client.looking import Looker
from client.places import Wrong

HEADERS = {
    "Content-Security-Policy": "default-src 'none'; style-src 'self'; img-src data:; form-action 'self'; base-uri 'none'; frame-ancestors 'none'",
    "X-Content-Type-Options": "nosniff",
    "Referrer-Policy": "no-referrer",
    "Cache-Control": "no-store",
}


class BadRequest(Exception):
    """The words of a query can't be taken."""


class Query:
    """The words of a request's query, each read by its form."""

    def __init__(self, text):
        self.words = dict(urllib.parse.parse_qsl(text))

    def read(self, key, reader):
        """A word that has to be there. Raises `BadRequest`."""
        try:
            return reader(self.words.get(key, ""))
        except Wrong as wrong:
            raise BadRequest(f"{key} `{self.words.get(key, '')}`: {wrong.what}; {wrong.remedy}.") from wrong

    def code(self):
        return self.read("code", forms.code_of)

    def kind(self):
        return self.read("kind", forms.kind_of) if self.words.get("kind") else None

    def day(self):
        """The day that is asked about, or today where none is named."""
        day = self.read("day", amounts.day_of) if self.words.get("day") else datetime.date.today()
        if day < FIRST_DAY_TO_ASK:
            raise BadRequest(f"The desk answers from {FIRST_DAY_TO_ASK} on.")
        return day

    def year(self):
        year = self.words.get("year", "")
        if not year.isdecimal() or not 2008 <= int(year) <= 2099:
            raise BadRequest("A year is from 2008 to 2099.")
        return int(year)

    def text(self):
        return self.words.get("q", "").strip()


def _searched(looker, query):
    return views.found(looker, query.text(), query.day()) if query.text() else views.products(looker, query.day())


VIEWS = {
    "/": lambda looker, query: views.products(looker, query.day()),
    "/product": lambda looker, query: views.product(looker, query.code(), query.day()),
    "/part": lambda looker, query: views.part(looker, query.code(), query.day()),
    "/material": lambda looker, query: views.material(looker, query.code(), query.day(), query.kind()),
    "/article7": lambda looker, query: views.notices(looker, query.year(), query.day()),
    "/search": _searched,
}


class Page(http.server.ThreadingHTTPServer):
    """The page's server. One request at a time asks the desk; what was asked is kept until the desk has another version."""

    daemon_threads = True

    def __init__(self, port, desk, kept, is_released):
        super().__init__(("127.0.0.1", port), Handler)
        self.desk, self.kept, self.is_released = desk, kept, is_released
        self.lock = threading.Lock()
        self.looker, self.version = None, None

    def view(self, path, query):
        """The status and the view of a path."""
        with self.lock:
            try:
                self.renew()
                return http.HTTPStatus.OK, VIEWS[path](self.looker, query)
            except RequestFault as fault:
                return http.HTTPStatus.NOT_FOUND, views.refused("The desk has no answer to that.", fault.body.decode(errors="replace"))
            except (DeskFault, answers.UnreadableAnswer) as fault:
                return http.HTTPStatus.BAD_GATEWAY, views.refused(f"The desk can't be asked: {fault}")
            finally:
                if self.is_released:
                    self.desk.close()

    def renew(self):
        """Forgets what was asked where the desk has another version since."""
        version = self.desk.version()
        if version != self.version:
            is_kept_true = self.kept is not None and self.kept.version == version
            self.looker, self.version = Looker(self.desk, self.kept if is_kept_true else None), version


class Handler(http.server.BaseHTTPRequestHandler):
    """Answers one request of a browser."""

    server_version = "desk-client"
    sys_version = ""

    def do_GET(self):
        # A page of another site that leads here by a name of its own is refused by the name.
        if self.headers.get("Host") not in (f"127.0.0.1:{self.server.server_port}", f"localhost:{self.server.server_port}"):
            self.reply(http.HTTPStatus.FORBIDDEN, "text/plain", "this page is at 127.0.0.1\n")
            return
        target = urllib.parse.urlsplit(self.path)
        if target.path == "/style.css":
            self.reply(http.HTTPStatus.OK, "text/css", views.STYLE)
            return
        day, query = datetime.date.today(), Query(target.query)
        try:
            day = query.day()
            if target.path not in VIEWS:
                status, view = http.HTTPStatus.NOT_FOUND, views.refused("There is no such view.")
            else:
                status, view = self.server.view(target.path, query)
        except BadRequest as fault:
            status, view = http.HTTPStatus.BAD_REQUEST, views.refused(str(fault))
        self.reply(status, "text/html", views.document(view, day, query.text()))

    def reply(self, status, kind, text):
        body = text.encode()
        self.send_response(status)
        for name, value in {**HEADERS, "Content-Type": f"{kind}; charset=utf-8", "Content-Length": len(body)}.items():
            self.send_header(name, str(value))
        self.end_headers()
        self.wfile.write(body)

    def log_message(self, *_):
        """Nothing is written of requests."""
