"""Tests of `bin/desk-client` as a person runs it, of its mistakes too, and of its connection to a desk.

What it writes has to be what docs/FORMATS.md, the law and counting by hand give. Each test works in a folder of its own.
"""
import contextlib
import datetime
import fractions
import hashlib
import html
import os
import pathlib
import pty
import re
import socket
import subprocess
import sys
import threading

from serving import GATEWAY, PATIENCE, Server, differs, requests_in, room, talk

top = pathlib.Path(__file__).resolve().parent.parent
sys.path.insert(0, str(top))
from client import amounts, answers, figures, law, supplier_sheet  # noqa: E402 (the line above has to come first)
from client.desk import Connection, NoDesk, NoSuchCode, Refused, RequestFault  # noqa: E402
from client.places import Wrong  # noqa: E402

CLIENT = str(top / "bin/desk-client")
DAY = "2024-07-22"


def ran(program, folder, *words):
    """Runs the client in a folder: its status, and what it wrote to standard output and standard error."""
    environment = {**os.environ, "DESK_PROGRAM": program[0]}
    done = subprocess.run([CLIENT, *map(str, words)], cwd=folder, env=environment, stdin=subprocess.DEVNULL, capture_output=True, timeout=5 * PATIENCE)
    return done.returncode, done.stdout.decode(), done.stderr.decode()


def put(folder, **files):
    """Writes files into a folder, `name_csv` as name.csv; a text is UTF-8."""
    for name, content in files.items():
        data = content if isinstance(content, bytes) else content.encode()
        (folder / name.replace("_", ".")).write_bytes(data)


def fill(program, store, *names):
    """Fills a store with the gateway, by the program alone."""
    stream = b"".join(talk.message(*request) for name in names or ("enter.txt",) for request in requests_in(name))
    talk.session(program[0], stream, store)


def without_notes(written):
    """The lines without those that tell how the files were read."""
    return [line for line in written.splitlines() if not re.match(r"\S+: (?!\d+ (?:entered|there|refused))", line)]


def lacks(what, text, *pieces):
    """What of these pieces a text doesn't have."""
    for piece in pieces:
        if piece not in text:
            return f"{what}: no {piece!r} in {text[:900]!r}"
    return None


# ---- the connection


def gives_answers_as_objects(program):
    """The answers on the gateway are read into objects, as their lines say."""
    with room() as folder:
        fill(program, folder / "g.db")
        with Connection.over_store(folder / "g.db", program[0]) as desk:
            rohs, duties, notices = desk.rohs("GATEWAY", DAY), desk.article33("GATEWAY", DAY), desk.article7(2024, "2024-12-31")
            part, uses, summary, material = desk.part("CABLE"), desk.uses("PVC"), desk.summary(DAY), desk.material("PVC", "3", DAY)
    breach = answers.Finding(
        "PVC", law.Rule.DEHP, 15_000_000_000, 5_000_000_000, answers.Verdict.BREACH, chain=("GATEWAY", "CABLE", "PVC")
    )
    wanted = (
        19, 102_000_000, breach, fractions.Fraction(3000), "III-6C", ("CABLE", 15000, 11_000_000, datetime.date(2008, 10, 28)), 1_200_000_000_000,
        datetime.date(2018, 12, 27), (answers.Line("COPPER", 2), answers.Line("PVC", 1)), ("CABLE", 1), ("GATEWAY", law.Kind.IT), (1, 2), 6, ("CABLECO", 3), 10,
    )
    duty, product = duties.duties[0], summary.products[0]
    found = (
        rohs.version, rohs.mass, rohs.findings[1], rohs.findings[1].ppm, rohs.findings[0].row, (duty.article, duty.mass, duty.of, duty.included),
        notices.notices[0].tonnage, notices.notices[0].due, part.lines, (uses.users[0].parent, uses.users[0].count),
        (uses.products[0].code, uses.products[0].kind), (product.breaches, product.duties), summary.rows["lines"],
        (material.supplier, material.declaration), len(material.findings),
    )
    return differs("the answers", found, wanted)


def refuses_other_answers(program):
    """An answer with a line too many, too few or of another form is no answer of which a reading is made."""
    good = b"version 3\npart A article mass 5\nname A\nline B 1\n"
    if answers.part_of(good).lines != (answers.Line("B", 1),):
        return "the good answer isn't read"
    for bad in (good + b"weight 5\n", b"version 3\npart A article mass 5\n", good.replace(b"article", b"thing"), b"", b"desk: store\n", b"\xff"):
        with contextlib.suppress(answers.UnreadableAnswer):
            return f"{bad!r} is read as {answers.part_of(bad)}"
    return None


class Between:
    """Stands between a client and a server, and passes the requests of each connection on, or breaks it off as its turn says."""

    def __init__(self, port, turns):
        self.port, self.turns, self.bodies = port, list(turns), []
        self.socket = socket.create_server(("127.0.0.1", 0))
        self.own_port = self.socket.getsockname()[1]
        threading.Thread(target=self.serve, daemon=True).start()

    def serve(self):
        for turn in self.turns:
            with contextlib.suppress(OSError), self.socket.accept()[0] as client:
                turn(self, client)
        self.socket.close()

    def request(self, client):
        """One whole request of a client."""
        data = self.received(client)
        while b"\r\n\r\n" not in data:
            data += self.received(client)
        head, _, body = data.partition(b"\r\n\r\n")
        length = re.search(rb"Content-Length: (\d+)", head)
        while length and len(body) < int(length[1]):
            body += self.received(client)
        self.bodies.append(body)
        return head + b"\r\n\r\n" + body

    def received(self, client):
        piece = client.recv(4096)
        if not piece:
            raise ConnectionError("the client is gone")
        return piece

    def asked(self, request):
        """What the server replies to a request."""
        with socket.create_connection(("127.0.0.1", self.port), timeout=PATIENCE) as server:
            server.sendall(request)
            with server.makefile("rb") as stream:
                return talk.reply(stream).text

    def lose_the_reply(self, client):
        self.asked(self.request(client))

    def break_inside_the_reply(self, client):
        client.sendall(self.asked(self.request(client))[:-3])

    def refuse_for_now(self, client):
        self.request(client)
        client.sendall(b"HTTP/1.1 503 Service Unavailable\r\nContent-Length: 12\r\nConnection: close\r\n\r\nstore-fault\n")

    def pass_on(self, client):
        while True:
            client.sendall(self.asked(self.request(client)))


def sends_an_edit_again(program):
    """After a reply that is lost, one that breaks off and a 503, the edit is sent again as it was, and made once."""
    edit = {"edit": "part", "ticket": "t1", "code": "A", "kind": "article", "name": "A"}
    turns = (Between.pass_on, Between.lose_the_reply, Between.break_inside_the_reply, Between.refuse_for_now, Between.pass_on)
    with Server(program) as server:
        between = Between(server.port, turns)
        with Connection.at_port(between.own_port) as desk:
            desk.version()
            desk.close()
            accepted = desk.enter(edit)
        with Connection.at_port(server.port) as other:
            version = other.version()
    if len(set(between.bodies[1:])) != 1 or len(between.bodies) != 5:
        return f"these bodies were sent: {between.bodies}"
    return differs("the edit", (accepted.number, accepted.was_known, version), (1, False, 1))


def gives_up_in_the_end(program):
    """A status 503 that stays is told as it is; a port without a desk, a store that is taken and a missing program are told as no desk."""
    between = Between(0, [Between.refuse_for_now] * 2)
    with contextlib.suppress(RequestFault), Connection.at_port(between.own_port, tries=2) as desk:
        return f"a 503 that stays is answered {desk.ask('/version')}"
    with room() as folder, Connection.over_store(folder / "d.db", program[0]) as first:
        first.version()
        for other in (
            lambda: Connection.over_store(folder / "d.db", program[0]), lambda: Connection.over_store(folder / "e.db", folder / "no"),
            lambda: Connection.at_port(between.own_port, tries=2),
        ):
            with contextlib.suppress(NoDesk), other() as desk:
                return f"no desk answers {desk.version()}"
    return None


def tells_refusals_apart(program):
    """A rule that refuses, a code that isn't kept and a bad request are three exceptions, with the desk's words."""
    line = {"edit": "line", "ticket": "t", "parent": "A", "child": "B", "count": 1}
    found = []
    with Connection.over_store(None, program[0]) as desk:
        for call, given in ((desk.enter, line), (desk.part, "A"), (desk.ask, "/rohs/A")):
            try:
                call(given)
            except RequestFault as fault:
                found.append((type(fault), fault.status, fault.words))
    return differs(
        "the faults", found, [(Refused, 409, "refused unknown-part A"), (NoSuchCode, 404, "no-such-code A"), (RequestFault, 400, "bad-query day")]
    )


# ---- enter

PARTS = "Item;Description;Type;Plant\r\nPIN;Contact pin;Article;1\r\nCABLE;Gehäuse;article;\r\nBOX;Box;assembly;\r\n;;;\r\n"
LINES = "Parent\tComponent\tQty\nPIN\tBRASS\t1,0\nBOX\tPIN\t40\nBOX\tCABLE\t1.000\n"
PRODUCTS = "\ufeffproduct,category\nBOX,3\n"


def enters_an_erp_as_it_is(program):
    """Parts, lines and products come in as an ERP saves them: semicolons, tabs, commas, Latin-1, a byte-order mark, empty rows."""
    with room() as folder:
        put(folder, parts_csv=PARTS.encode("latin-1"), lines_txt=LINES, products_csv=PRODUCTS)
        status, written, _ = ran(program, folder, "enter", "parts.csv", GATEWAY / "brassco-11.csv", "lines.txt", "products.csv", "--store", "d.db")
        with Connection.over_store(folder / "d.db", program[0]) as desk:
            found = (desk.ask("/part/BOX"), desk.part("CABLE").name, desk.part("PIN").lines)
    told = (
        "parts.csv: its cells are separated by semicolons", "parts.csv: it isn't UTF-8 and is read as Windows-1252",
        'parts.csv: column A "Item" is the code', 'parts.csv: not read: column D "Plant"', 'row 2, cell C2 (Type) "Article" is read as article',
        "lines.txt: its cells are separated by tabs", "lines.txt: its numbers have a decimal comma, as `1,0` shows",
        'lines.txt: row 4, cell C4 (Qty) "1.000" is read as 1000', "products.csv: it is UTF-8 with a byte-order mark",
    )
    wanted = (
        b"version 8\npart BOX assembly mass 80000000\nname Box\nproduct kind 3\nline CABLE 1000\nline PIN 40\n", "Gehäuse", (answers.Line("BRASS", 1),)
    )
    last = ["parts.csv: 3 entered", f"{GATEWAY / 'brassco-11.csv'}: 1 entered", "lines.txt: 3 entered", "products.csv: 1 entered", "version 8"]
    return lacks("the notes", written, *told) or differs("the end", (status, without_notes(written)), (0, last)) or differs("the desk", found, wanted)


def names_all_mistakes_by_cell(program):
    """All cells that are wrong are named at once, over all files, with what to do, and nothing is entered."""
    with room() as folder:
        put(
            folder, parts_csv="code,kind,name\nA B,article,x\nC,box,\n",
            lines_csv='parent,child,count\nA,B,"1,000"\nA,C,x\nA,D,0\nA,E,1\nA,E,2\n',
            edits_jsonl='{"edit":"candidate","substance":"lead","day":"2018-6-27"}\n{"edit":"fly"}\n{\n{"edit":"unline","parent":"A","z":1}\n',
            d_csv="D,1,ACME,07,2024-01-23\nM,X,Name,0\nS,Y,lead,1\nE,X,Lead,6(c)\nM,X,Name,5,\nQ\n",
        )
        status, written, _ = ran(program, folder, "enter", "parts.csv", "lines.csv", "edits.jsonl", "d.csv", "none.csv", "--store", "d.db")
        is_untouched = not (folder / "d.db").exists()
    lines = [line for line in without_notes(written) if not line.startswith("    ")]
    places = (
        'parts.csv, row 2, cell A2 (code) "A B": it isn\'t a code', 'parts.csv, row 3, cell B3 (kind) "box": it is neither',
        'parts.csv, row 3, cell C3 (name) "": it is empty', 'lines.csv, row 2, cell C2 (count) "1,000": it may be thousands or decimals',
        'lines.csv, row 3, cell C3 (count) "x": it isn\'t a number', 'lines.csv, row 4, cell C4 (count) "0": it isn\'t from 1 to 1000000',
        'lines.csv, row 6 "A E": row 5 has the same line', 'edits.jsonl, row 1 (day) "2018-6-27": it isn\'t written as a day is',
        'edits.jsonl, row 2 (edit) "fly": it is no edit', 'edits.jsonl, row 3 "{": it is no JSON', 'edits.jsonl, row 4 (z) "1": a unline has no such key',
        "edits.jsonl, row 4 (child): the key is missing", 'd.csv, row 1, cell D1 (number) "07": it isn\'t a whole number',
        'd.csv, row 2, cell D2 (mass) "0": it isn\'t a whole number', 'd.csv, row 3, cell B3 (material) "Y": no M row',
        'd.csv, row 4, cell C4 (rule) "Lead": it is none of the ten rules', 'd.csv, row 5, cell E5 "": a row M has 4 fields',
        'd.csv, row 5, cell B5 (material) "X": row 2 has it already', 'd.csv, row 6, cell A6 "Q": it is none of M, S and E',
    )
    for line, place in zip(lines, places):
        if not line.startswith(place):
            return f"{line!r} is told in place of {place!r}"
    end = (status, len(lines), lines[-1], is_untouched)
    fault = lacks("a file that isn't there", written, "none.csv: it can't be read: No such file or directory\n    Look at its name and its rights.\n")
    return fault or differs("the end", end, (1, len(places) + 1, f"{len(places) + 1} mistakes; nothing is entered", True))


def tells_the_desks_refusals_by_cell(program):
    """Each refusal of the desk is told with its cell, value and remedy, the other rows are entered, and the status is 1."""
    with room() as folder:
        put(
            folder, lines_csv="parent,child,count\nPIN,BRASS,1\nPIN,PVC,1\nBOX,NIX,1\nBOX,PIN,2\n", parts_csv="code,kind,name\nPIN,article,Pin\nBOX,assembly,Box\n",
            d_csv="D,1,ACME,1,2024-01-23\nM,W,Wire,5\nS,W,unobtainium,1\n", edits_jsonl='{"edit":"part","code":"PIN","kind":"assembly","name":"Pin"}\n',
        )
        files = ("parts.csv", GATEWAY / "brassco-11.csv", "lines.csv", "d.csv", "edits.jsonl")
        status, written, _ = ran(program, folder, "enter", *files, "--store", "d.db")
    wanted = [
        'lines.csv, row 3, cell B3 (child) "PVC": the desk says `refused unknown-material PVC`',
        "    No declaration of this material is entered. Correct the code, or enter its supplier's declaration first.",
        'lines.csv, row 4, cell B4 (child) "NIX": the desk says `refused unknown-part NIX`',
        "    The desk doesn't keep this part. Correct the code, or enter the part first.",
        'd.csv, row 3, cell C3 (substance) "unobtainium": the desk says `refused unknown-substance unobtainium`',
        "    The desk doesn't keep this substance. Correct the code, or enter the substance first.",
        'edits.jsonl, row 1 (kind) "assembly": the desk says `refused kind-changed PIN`',
        "    The part is kept as the other of article and assembly, and stays it. Correct the kind, or choose another code.",
        "parts.csv: 2 entered", f"{GATEWAY / 'brassco-11.csv'}: 1 entered", "lines.csv: 2 entered, 2 refused", "d.csv: 1 refused", "edits.jsonl: 1 refused", "version 5",
    ]
    return differs("the end", (status, without_notes(written)), (1, wanted))


def does_nothing_the_second_time(program):
    """The same files entered again change nothing; a row that a later edit has overwritten is told, and entered anew with --again alone."""
    with room() as folder:
        put(folder, parts_csv="code,kind,name\nA,assembly,A\nB,article,B\n", lines_csv="parent,child,count\nA,B,2\n", other_csv="parent,child,count\nA,B,3\n")
        found = []
        for words in (("parts.csv", "lines.csv"), ("parts.csv", "lines.csv"), ("other.csv",), ("lines.csv",), ("lines.csv", "--again"), ("other.csv", "--again")):
            status, written, _ = ran(program, folder, "enter", *words, "--store", "d.db")
            found.append((status, *without_notes(written)))
        with Connection.over_store(folder / "d.db", program[0]) as desk:
            count = desk.part("A").lines[0].count
    wanted = [
        (0, "parts.csv: 2 entered", "lines.csv: 1 entered", "version 3"),
        (0, "parts.csv: 2 there already", "lines.csv: 1 there already", "version 3"),
        (0, "other.csv: 1 entered", "version 4"),
        (
            1, "lines.csv, row 2: it was entered as edit 3, and the desk has something else there by now",
            "    Nothing was changed. To enter it once more, say --again.", "lines.csv: 1 there already and changed since", "version 4",
        ),
        (0, "lines.csv: 1 entered", "version 5"),
        (0, "other.csv: 1 entered", "version 6"),
    ]
    return differs("the ends", found, wanted) or differs("the count", count, 3)


def counts_shipments_once(program):
    """A shipment without a reference counts once, which is told; two equal ones in a file are a mistake; references tell them apart."""
    with room() as folder:
        fill(program, folder / "d.db")
        put(
            folder, once_csv="product,year,units\nGATEWAY,2025,7\n", twice_csv="product,year,units\nGATEWAY,2025,5\nGATEWAY,2025,5\n",
            notes_csv="product,year,units,delivery note\nGATEWAY,2025,5,L1\nGATEWAY,2025,5,L2\n", other_csv="product,year,units,reference\nGATEWAY,2025,6,L1\n",
        )
        found = []
        for name in ("once.csv", "once.csv", "twice.csv", "notes.csv", "notes.csv", "other.csv"):
            status, written, _ = ran(program, folder, "enter", name, "--store", "d.db")
            found.append((status, [line for line in without_notes(written) if not line.startswith("    ")][0]))
        records = talk.records(folder / "d.db")
    wanted = [
        (0, "once.csv: 1 entered"),
        (0, "once.csv, row 2: these units were entered before, as edit 20, and aren't counted again"),
        (1, "twice.csv, row 3: it is the same shipment as that of row 2"),
        (0, "notes.csv: 2 entered"), (0, "notes.csv: 2 there already"),
        (1, 'other.csv, row 2, cell D2 (reference) "L1": the desk says `refused ticket-reused`'),
    ]
    kept = [body for kind, code, body in records if (kind, code) == (9, b"2025/GATEWAY")]
    return differs("the ends", found, wanted) or differs("the units kept", kept, [b"1\t17"])


def tries_without_a_change(program):
    """--dry-run over a store tells what would be refused and leaves the store as it is; over a port it looks at the forms alone and says so."""
    with room() as folder:
        fill(program, folder / "d.db")
        put(folder, lines_csv="parent,child,count\nCABLE,BRASS,1\nCABLE,NIX,1\n", bad_csv="parent,child,count\nCABLE,BRASS,x\n")
        before = talk.records(folder / "d.db")
        status, written, _ = ran(program, folder, "enter", "lines.csv", "--store", "d.db", "--dry-run")
        new = ran(program, folder, "enter", "lines.csv", "--store", "new.db", "--dry-run")[0], (folder / "new.db").exists()
        after = talk.records(folder / "d.db")
        with Server(program) as server:
            served = [ran(program, folder, "enter", name, "--desk", server.port, "--dry-run") for name in ("lines.csv", "bad.csv")]
            with Connection.at_port(server.port) as desk:
                version = desk.version()
    last = without_notes(written)[-3:]
    wanted = ["lines.csv: 1 entered, 1 refused", "version 20", "this was tried on a copy; the store is as it was"]
    told = without_notes(served[0][1])[-1]
    return (
        differs("the trial", (status, last, after == before, new), (1, wanted, True, (1, False)))
        or lacks("what a port tells", told, "2 rows of good form; whether the desk takes them can be tried over a store alone")
        or differs("over a port", (served[0][0], served[1][0], version), (0, 1, 0))
    )


def shows_a_bar_on_a_terminal(program):
    """Long work shows a bar on a terminal that ends full and is taken off, and nothing of it elsewhere."""
    with room() as folder:
        put(folder, parts_csv="code,kind,name\n" + "".join(f"P{number},article,P\n" for number in range(300)))
        words = [CLIENT, "enter", "parts.csv", "--store", "d.db", "--program", program[0]]
        ours, theirs = pty.openpty()
        process = subprocess.Popen(words, cwd=folder, stdin=subprocess.DEVNULL, stdout=subprocess.DEVNULL, stderr=theirs)
        os.close(theirs)
        shown = b""
        with contextlib.suppress(OSError):  # (the terminal ends with its last writer)
            while piece := os.read(ours, 4096):
                shown += piece
        os.close(ours)
        status = process.wait()
        quiet = ran(program, folder, "enter", "parts.csv", "--store", "d.db")[2]
    bar = b"\r[" + b"#" * 40 + b"] 300 of 300\r"
    return differs("the bar", (status, bar in shown, shown.endswith(b" \r"), quiet), (0, True, True, ""))


def adds_lines_up(program):
    """A child in two places of a bill is a mistake, and with --add-up the counts are added up, which is told."""
    with room() as folder:
        put(folder, parts_csv="code,kind,name\nA,assembly,A\nB,article,B\n", lines_csv="parent,child,count\nA,B,2\nA,B,2\n")
        refused = ran(program, folder, "enter", "parts.csv", "lines.csv", "--store", "d.db")
        status, written, _ = ran(program, folder, "enter", "parts.csv", "lines.csv", "--add-up", "--store", "d.db")
        with Connection.over_store(folder / "d.db", program[0]) as desk:
            count = desk.part("A").lines[0].count
    fault = lacks("without it", refused[1], 'lines.csv, row 3 "A B": row 2 has the same line', "--add-up")
    return fault or lacks("the note", written, "lines.csv: row 3 is added to row 2, which comes to 4") or differs("with it", (refused[0], status, count), (1, 0, 4))


def takes_words_for_columns_and_values(program):
    """--column and --value say what headings and values stand for; a heading that may be two fields is told."""
    with room() as folder:
        put(folder, parts_csv="Teil;Art;Name\nA;Baugruppe;Rahmen\n", two_csv="code;item;kind;name\nC;B;article;N\n")
        words = ("--column", "Teil=code", "--column", "Art=kind", "--value", "Baugruppe=assembly")
        good = ran(program, folder, "enter", "parts.csv", *words, "--store", "d.db")
        unknown = ran(program, folder, "enter", "parts.csv", "--store", "d.db")
        two = ran(program, folder, "enter", "two.csv", "--store", "d.db")
        mended = ran(program, folder, "enter", "two.csv", "--column", "item=none", "--store", "d.db")
    fault = lacks("without words", unknown[1], "no row has the headings of a table", "parts: code, kind, name")
    fault = fault or lacks("two headings", two[1], 'both column A "code" and column B "item" may be the code', '--column "item=code"')
    return fault or differs("the statuses", [it[0] for it in (good, unknown, two, mended)], [0, 1, 1, 0])


# ---- declaration

GERMAN = "\r\n".join([
    "Messinger GmbH;;;;;;", "Supplier:;MESSINGER;;;;;", "Declaration;11;;;;;", "Date;23.01.2024;;;;;", ";;;;;;",
    "Material;Name;Weight;Unit;Substance;Content;Unit;Exemption",
    'BRASS;"Messing; für Stifte";2,0;g;Lead;3;%;6(c)', ";;;;Cd;<5;ppm;", "TIN ;Überzug;0,0123456;g;Pb;69,7;ppm;", ";;;;;;", "",
]).encode("latin-1")
TEMPLATE = (
    "\ufeffa declaration\t\t\t\t\nD\t1\tCABLECO\t3\t2024-01-23\nM\tCOPPER\tCopper, \"soft\"\t3 g\t\nM\tPVC\tPVC sheath\t5000\tmg\n"
    "S\tPVC\tDEHP\t15.5\tmg\nS\tPVC\tlead-oxide\t12\t\nE\tPVC\tlead\t15(a)\t\n"
)
TABLE = (
    'Material,Mass (mg),CAS Number,Amount,Exemption,,\nA,"1,500.25",7439-92-1,0.1 %,,,\nA,"1,500.25",mercury,0,,,\n'
    "B,20,,,,,\nC,3,117-81-7,40 ug,,,\n"
)


def converts_three_manners(program):
    """Sheets in three spreadsheets' manners come to the declarations that the same masses have in micrograms, reckoned by hand."""
    with room() as folder:
        put(folder, german_csv=GERMAN, template_txt=TEMPLATE, table_csv=TABLE)
        words = (("german.csv",), ("template.txt",), ("table.csv", "--supplier", "X", "--number", "4", "--day", "1/23/2024"))
        runs = [ran(program, folder, "declaration", *it, "-o", f"{place}.csv") for place, it in enumerate(words)]
        found = [(run[0], (folder / f"{place}.csv").read_text()) for place, run in enumerate(runs) if run[0] == 0]
    # 0.0123456 g are 12345.6 ug, rounded down; 69.7 ppm of them 0.86.., rounded up. 0.1 % of 1500.25 mg are 1500.25 ug, rounded up.
    wanted = [
        (0, "D,1,MESSINGER,11,2024-01-23\nM,BRASS,Messing; für Stifte,2000000\nS,BRASS,lead,60000\nS,BRASS,cadmium,10\nE,BRASS,lead,6(c)\n"
            "M,TIN,Überzug,12345\nS,TIN,lead,1\n"),
        (0, "D,1,CABLECO,3,2024-01-23\nM,COPPER,\"Copper, soft\",3000000\nM,PVC,PVC sheath,5000000\nS,PVC,dehp,15500\nS,PVC,lead-oxide,12\n"
            "E,PVC,lead,15(a)\n".replace('"Copper, soft"', '"Copper, ""soft"""')),
        (0, "D,1,X,4,2024-01-23\nM,A,A,1500250\nS,A,lead,1501\nS,A,mercury,0\nM,B,B,20000\nM,C,C,3000\nS,C,dehp,40\n"),
    ]
    told = (
        "it isn't UTF-8 and is read as Windows-1252 (Latin-1); look at line 7", 'row 8, cell F8 (Content) "<5" in ppm is less than that, and taken as 10 ug',
        "row 8 has no material and is taken for one of BRASS", 'row 9, cell C9 (Weight) "0,0123456" in g is 12345 ug, rounded down from 12345.6',
        "its numbers have a decimal comma, as `2,0` shows", 'column D "Unit" is the mass unit, as it stands behind column C', "row 1 isn't read: Messinger GmbH",
        'row 4, cell B4 (day) "23.01.2024" is read as 2024-01-23', 'cell E7 (Substance) "Lead" is taken for lead', "    S,BRASS,cadmium,10",
        "blanks around the values of 1 cells are taken off",
    )
    return differs("the declarations", found, wanted) or lacks("what is told", runs[0][1], *told)


def desk_takes_what_is_converted(program):
    """The program's own check takes each converted declaration."""
    for data, options in (
        (GERMAN, supplier_sheet.Options()), (TABLE.encode(), supplier_sheet.Options("X", "4", "2024-01-23")),
    ):
        made = supplier_sheet.Converter("sheet", options).convert(data)
        checked = talk.run(program[0], ["check", DAY, "3"], made.declaration.csv())
        if fault := differs("the check", (checked.status, checked.wrote.split(b"\n")[0][:16]), (0, b"check 2024-07-22")):
            return fault
    return None


def names_mistakes_of_a_sheet(program):
    """Every mistake of a sheet is named by its cell at once, with what to do, and no declaration is written."""
    sheet = (
        "Material,Name,Mass (mg),Substance,Content,Exemption\nA B,x,1.5,lead,n.d.,6 (c)\nC,y,\"1,000\",Unobtainium!,3 ppm,\nC,y,2,pb,1,\n,,,,5,\n"
        "D,z,1E+06,1317-36-8,3%,7(a)\nE,,,mercury,2 mg,\nF,f,1,lead,2 g,\nG,g,1,lead,1 ug,\nG,g,1,Pb,1 ug,\n"
    )
    with room() as folder:
        put(folder, s_csv=sheet)
        status, written, _ = ran(program, folder, "declaration", "s.csv", "--supplier", "X", "--day", "01/02/2024", "-o", "d.csv")
        is_written = (folder / "d.csv").exists()
    lines = [line for line in without_notes(written) if not line.startswith("    ")]
    wanted = [
        "s.csv, (number): it isn't said what the number is", 's.csv, (day) "01/02/2024": it may be one of two days',
        's.csv, row 2, cell A2 (Material) "A B": it isn\'t a code', 's.csv, row 2, cell E2 (Content) "n.d.": it isn\'t an amount',
        's.csv, row 2, cell F2 (Exemption) "6 (c)": it isn\'t the number of an exemption',
        's.csv, row 3, cell D3 (Substance) "Unobtainium!": it is none of the ten restricted substances by name, symbol or CAS number',
        's.csv, row 4, cell C4 (Mass (mg)) "2": row 3 has another mass of C', 's.csv, row 4, cell E4 (Content) "1": it has no unit',
        's.csv, row 5, cell D5 (Substance) "": an amount has no substance', 's.csv, row 6, cell C6 (Mass (mg)) "1E+06": the spreadsheet has shortened the number',
        's.csv, row 6, cell D6 (Substance) "1317-36-8": it is none of the ten restricted substances by name, symbol or CAS number',
        's.csv, row 7, cell C7 (Mass (mg)) "": E has no mass', 's.csv, row 8, cell A8 (Material) "F": its substances weigh 2000000 micrograms, and it 1000',
        's.csv, row 10, cell D10 (Substance) "Pb": G has lead already', "14 mistakes; there is no declaration",
    ]
    return differs("the mistakes", lines, wanted) or differs("the end", (status, is_written), (1, False))


def reads_numbers_exactly(program):
    """Numbers with commas, points, groups and units are read exactly, and one that may be two numbers isn't read."""
    gram, comma, point = amounts.Unit.GRAM, amounts.DecimalSign.COMMA, amounts.DecimalSign.POINT
    good = (
        ("2,5", None, "5/2"), ("0,125", None, "1/8"), ("1.000,5", None, "2001/2"), ("1,000,000", None, "1000000"), ("1 000 000", None, "1000000"),
        ("1'000.5", None, "2001/2"), ("1,000", comma, "1"), ("1,000", point, "1000"), ("12.345.678,9", comma, "123456789/10"), ("007", None, "7"),
        ("0.1", None, "1/10"), ("1234,567", None, "1234567/1000"),
    )
    for text, sign, value in good:
        amount = amounts.amount_of(text, sign, gram)
        if (amount.number, amount.unit) != (fractions.Fraction(value), gram):
            return f"{text} is read as {amount}"
    for text, sign in (("1,000", None), ("12.345", None), ("1E+06", None), ("1,5", point), ("1.2.3", None), ("1,2,3", None), ("-1", None), ("", None), ("1,000.000,0", None)):
        with contextlib.suppress(Wrong):
            return f"{text} is read as {amounts.amount_of(text, sign, gram)}"
    units = {"2 kg": 2 * 10**9, "3mg": 3000, "4 µg": 4, "5 ug": 5, "10 ppm": 10, "0.1 %": 1000, "7 mg/kg": 7}
    found = {text: amounts.amount_of(text, None).micrograms(10**6) for text in units}
    return differs("amounts of a gram", found, units)


def finds_no_portion_by_itself(program):
    """A material without a mass is a mistake; with --portion it is declared as one gram, which is told."""
    with room() as folder:
        put(folder, s_csv="Material,Substance,Content (ppm)\nA,lead,69.7\n")
        words = ("declaration", "s.csv", "--supplier", "X", "--number", "1", "--day", "2024-01-23")
        without, with_it = ran(program, folder, *words), ran(program, folder, *words, "--portion")
    fault = lacks("without", without[1], "A has no mass", "--portion") or differs("the statuses", (without[0], with_it[0]), (1, 0))
    return fault or lacks("with", with_it[1], "A has no mass and is declared as a portion of one gram", "    M,A,A,1000000", "    S,A,lead,70")


# ---- ask

QUESTIONS = {
    ("rohs", "GATEWAY", DAY): f"/rohs/GATEWAY?day={DAY}", ("article33", "GATEWAY", DAY): f"/article33/GATEWAY?day={DAY}",
    ("article7", "2024", "2024-12-31"): "/article7/2024?day=2024-12-31", ("part", "GATEWAY"): "/part/GATEWAY", ("uses", "PVC"): "/uses/PVC",
    ("material", "BRASS", "3", DAY): f"/material/BRASS?kind=3&day={DAY}", ("summary", DAY): f"/summary?day={DAY}",
}


def leaves_the_desks_text(program):
    """Below the reading, whose lines begin with `#`, stands the desk's text byte for byte, for each question, and after a refusal too."""
    with room() as folder:
        fill(program, folder / "g.db")
        targets = [*QUESTIONS.values(), "/part/NIX", "/rohs/PIN?day=2024-07-22"]
        wanted = [reply.body.decode() for reply in talk.replies(talk.session(program[0], b"".join(map(talk.question, targets)), folder / "g.db").wrote)]
        words = [*QUESTIONS, ("part", "NIX"), ("rohs", "PIN", DAY)]
        runs = [ran(program, folder, "ask", *it, "--store", "g.db") for it in words]
    for word, run, text in zip(words, runs, wanted):
        above = run[1].removesuffix(text)
        if not run[1].endswith(text) or not above or not all(line.startswith("#") for line in above.splitlines()):
            return f"{word}: {run[1]!r} doesn't end with {text!r} below a reading"
    return differs("the statuses", [run[0] for run in runs], [0] * len(QUESTIONS) + [1, 1])


def reads_for_a_person(program):
    """A reading has ppm of ppm, the last day of an exemption, the tree of the chain, and how near a tonne the tonnages are."""
    with room() as folder:
        fill(program, folder / "g.db")
        rohs, notices = ran(program, folder, "ask", "rohs", "GATEWAY", DAY, "--store", "g.db"), ran(program, folder, "ask", "article7", "2024", "2024-12-31", "--store", "g.db")
        duties = ran(program, folder, "ask", "article33", "GATEWAY", DAY, "--store", "g.db")
    return lacks(
        "rohs", rohs[1],
        "# GATEWAY, IT and telecommunications (kind 3), placed on the market on 2024-07-22: NOT COMPLIANT (after 19 edits)\n# It weighs 102 g.",
        "# exempt  BRASS: lead 30000 ppm of at most 1000 ppm, by row III-6C for 6(c), covered until 2026-06-30; from the next day on it is a breach\n",
        "# breach  PVC: dehp 3000 ppm of at most 1000 ppm\n",
        "#   GATEWAY  Gateway\n#     2 x CABLE  Cable\n#       1 x PVC  PVC sheath  <- dehp 3000 ppm of at most 1000 ppm\n",
    ) or lacks(
        # Two cables of 15 mg in each of 500000 gateways.
        "article7", notices[1], "# notify  lead by 2018-12-27: 1.2 t, which is 120 % of a tonne", "# below  dehp: 15 kg, which is 1.5 % of a tonne\n",
    ) or lacks("article33", duties[1], "# duty  CABLE: dehp about 0.1364 %, which is more than 0.1 % (15 mg of 11 g)\n", "#       40 x PIN  Contact pin  <- lead\n")


def tells_claims_without_a_row(program):
    """A claim `6c` is told where the row has `6(c)`; over a port the same needs an export, and without one it is said that it can't be told."""
    with room() as folder:
        fill(program, folder / "g.db")
        put(folder, d_csv="D,1,BRASSCO,12,2024-02-01\nM,BRASS,Brass,2000000\nS,BRASS,lead,60000\nE,BRASS,lead,6c\n")
        ran(program, folder, "enter", "d.csv", "--store", "g.db")
        own = ran(program, folder, "ask", "rohs", "GATEWAY", DAY, "--store", "g.db")[1]
        (folder / "export.txt").write_bytes(talk.run(program[0], ["export", "--store", str(folder / "g.db")]).wrote)
        with Server(program, store=folder / "g.db") as server:
            served = ran(program, folder, "ask", "rohs", "GATEWAY", DAY, "--desk", server.port)[1]
            exported = ran(program, folder, "ask", "rohs", "GATEWAY", DAY, "--desk", server.port, "--export", "export.txt")[1]
            put(folder, p_csv="code,kind,name\nNEW,article,New\n")
            ran(program, folder, "enter", "p.csv", "--desk", server.port)
            old = ran(program, folder, "ask", "rohs", "GATEWAY", DAY, "--desk", server.port, "--export", "export.txt")
    claim = "# claim  BRASS claims lead `6c`, which no row has, so that it covers nothing; there is a row for `6(c)`\n"
    fault = lacks("over the store", own, claim) or lacks("with an export", exported, claim)
    fault = fault or lacks("without one", served, "# Claims that match no exemption row can't be told over a port")
    return fault or lacks("an old export", old[2], "the export is of a desk of 20 edits, and this one has 21") or differs("its status", old[0], 2)


def never_rounds_a_limit_away(program):
    """A share just over a limit isn't shown as the limit, and what is rounded says so."""
    over = answers.Finding("M", law.Rule.LEAD, 10**15 + 1, 10**15, answers.Verdict.BREACH)
    third = answers.Finding("M", law.Rule.CADMIUM, 10**9, 3 * 10**6, answers.Verdict.BREACH)
    found = (figures.ppm_of_limit(over), figures.ppm_of_limit(third), figures.mass(1_000_000_000_001), figures.mass(0), figures.mass(999))
    wanted = (
        "lead a little over 1000 ppm of at most 1000 ppm", "cadmium about 33333.333 ppm of at most 100 ppm", "1.000000000001 t", "0 ug", "999 ug",
    )
    return differs("the figures", found, wanted)


# ---- gaps and sheet


def finds_what_is_missing(program):
    """Articles without materials, assemblies without lines, old declarations, claims without a row and a missing kind are each found."""
    with room() as folder:
        fill(program, folder / "g.db")
        whole = ran(program, folder, "gaps", "GATEWAY", "--store", "g.db")
        put(
            folder, parts_csv="code,kind,name\nPLUG,article,Plug\nBAG,assembly,Bag\n", lines_csv="parent,child,count\nGATEWAY,PLUG,1\nBOARD,BAG,1\n",
            d_csv="D,1,BRASSCO,12,2024-02-01\nM,BRASS,Brass,2000000\nS,BRASS,lead,60000\nE,BRASS,lead,6c\n",
        )
        ran(program, folder, "enter", "parts.csv", "lines.csv", "d.csv", "--store", "g.db")
        found = ran(program, folder, "gaps", "GATEWAY", "--older-than", "2024-02-01", "--store", "g.db")
        others = [ran(program, folder, "gaps", code, "--store", "g.db")[:2] for code in ("CABLE", "NIX")]
        with Server(program, store=folder / "g.db") as server:
            served = ran(program, folder, "gaps", "GATEWAY", "--desk", server.port)
            dated = ran(program, folder, "gaps", "GATEWAY", "--older-than", "2024-02-01", "--desk", server.port)[0]
    wanted = (
        "GATEWAY: 6 parts and 3 materials looked at (after 24 edits)\n"
        "missing  PLUG: an article without materials (Plug)\n         in GATEWAY > PLUG\n"
        "missing  BAG: an assembly without lines (Bag)\n         in GATEWAY > BOARD > BAG\n"
        "missing  BRASS: a claim that matches no exemption row, so that it covers nothing (lead `6c` of BRASSCO; there is a row for `6(c)`)\n"
        "         in GATEWAY > BOARD > PIN > BRASS\n"
        "missing  COPPER: a material that was declared long ago (by CABLECO on 2024-01-23, declaration 3)\n         in GATEWAY > CABLE > COPPER\n"
        "missing  PVC: a material that was declared long ago (by CABLECO on 2024-01-23, declaration 3)\n         in GATEWAY > CABLE > PVC\n5 gaps\n"
    )
    return (
        differs("the whole gateway", whole[:2], (0, "GATEWAY: 4 parts and 3 materials looked at (after 19 edits)\nno gap\n"))
        or differs("the gaps", found[:2], (1, wanted))
        or lacks("no product", others[0][1], "missing  CABLE: it is no product: no kind of equipment is entered for it")
        or lacks("no part", others[1][1], "missing  NIX: the desk keeps no such part")
        or lacks("over a port", served[1], "not looked for: claims that match no exemption row", "2 gaps")
        or differs("the statuses", (others[0][0], others[1][0], served[0], dated), (1, 1, 1, 2))
    )


def signs_the_desks_own_bytes(program):
    """A sheet has both answers byte for byte with their SHA-256, in the text and in the page, whose texts are escaped."""
    with room() as folder:
        fill(program, folder / "g.db")
        put(folder, parts_csv='code,kind,name\nGATEWAY,assembly,<b>Gate</b> & "way"\n')
        ran(program, folder, "enter", "parts.csv", "--store", "g.db")
        status, _, _ = ran(program, folder, "sheet", "GATEWAY", DAY, "--store", "g.db", "-o", "s.txt", "--html", "s.html")
        text, page = (folder / "s.txt").read_text(), (folder / "s.html").read_text()
        targets = (f"/rohs/GATEWAY?day={DAY}", f"/article33/GATEWAY?day={DAY}")
        bodies = [reply.body for reply in talk.replies(talk.session(program[0], b"".join(map(talk.question, targets)), folder / "g.db").wrote)]
        refused = ran(program, folder, "sheet", "PIN", DAY, "--store", "g.db")
    shown = re.findall(r"SHA-256 of these (\d+) bytes: (\w+)\n-+ the desk's text begins -+\n(.*?)-+ the desk's text ends -+\n", text, re.S)
    wanted = [(str(len(body)), hashlib.sha256(body).hexdigest(), body.decode()) for body in bodies]
    pieces = [html.unescape(piece) for piece in re.findall(r"<pre>(.*?)</pre>", page, re.S)][:2]
    return (
        differs("the text", (status, shown), (0, wanted)) or differs("the page", pieces, [body.decode() for body in bodies])
        or lacks("the text", text, "Version of the tables: 20", "\nno gap\n", "\nPVC       CABLECO   3            2024-01-23   PVC sheath\n", "Signature:")
        or lacks("the page", page, "&lt;b&gt;Gate&lt;/b&gt; &amp; ", *(hashlib.sha256(body).hexdigest() for body in bodies), "<td>CABLECO</td><td>3</td>")
        or differs("a tag of a name", "<b>" in page, False)
        or lacks("no product", refused[2], "the desk says `not-a-product PIN`, so there is nothing to sign") or differs("its status", refused[0], 1)
    )


def tells_wrong_words(program):
    """Words that can't be taken end with 2, and a desk that isn't there with 3, each with a line on standard error."""
    with room() as folder:
        found = [
            ran(program, folder, *words)[0] for words in (
                (), ("enter",), ("enter", "x.csv", "--desk", "0", "--dry-run"), ("ask", "rohs", "A", "2013-01-01", "--store", "d.db"), ("ask", "part", "A B"),
                ("ask", "part", "A"), ("ask", "part", "A", "--desk", "1", "--store", "d"), ("gaps", "A", "--store", "d.db", "--program", "no"),
                ("ask", "part", "A", "--desk", "1", "--export", "none"),
            )
        ]
    return differs("the statuses", found, [2, 2, 2, 2, 2, 2, 2, 3, 3])


TESTS = (
    gives_answers_as_objects, refuses_other_answers, sends_an_edit_again, gives_up_in_the_end, tells_refusals_apart, enters_an_erp_as_it_is,
    names_all_mistakes_by_cell, tells_the_desks_refusals_by_cell, does_nothing_the_second_time, counts_shipments_once, tries_without_a_change,
    shows_a_bar_on_a_terminal, adds_lines_up, takes_words_for_columns_and_values, converts_three_manners, desk_takes_what_is_converted,
    names_mistakes_of_a_sheet, reads_numbers_exactly, finds_no_portion_by_itself, leaves_the_desks_text, reads_for_a_person, tells_claims_without_a_row,
    never_rounds_a_limit_away, finds_what_is_missing, signs_the_desks_own_bytes, tells_wrong_words,
)


def tests(program):
    """The tests: a name, a function that gives what is wrong or None, and what it is given."""
    for test in TESTS:
        yield f"client: {test.__doc__.splitlines()[0]}", test, (program,)
