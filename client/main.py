"""The command line of `bin/desk-client`."""
import argparse
import contextlib
import enum
import os
import pathlib
import shutil
import sys
import tempfile

from client import amounts, answers, ask, entries, enter, forms, gaps, kept, page, sheet, supplier_sheet
from client.desk import Connection, DeskFault, NoSuchCode
from client.looking import Looker
from client.law import FIRST_DAY_TO_ASK
from client.places import Wrong
from client.spreadsheet import Separator

TOP = pathlib.Path(__file__).resolve().parent.parent


class Status(enum.IntEnum):
    """How a command ended."""

    DONE = 0
    # Something was refused, is missing, or is a mistake; standard output says what.
    FAULTS = 1
    # The command line can't be read (argparse ends so).
    WORDS = 2
    # No desk answers, or a file can't be read or written.
    NO_DESK = 3


class Halt(Exception):
    """Ends a command with a line on standard error."""

    def __init__(self, line, status=Status.NO_DESK):
        super().__init__(line)
        self.status = status


def connect(options):
    """A connection to the desk that the options name."""
    if options.desk is not None:
        return Connection.at_port(options.desk)
    if options.store is not None:
        return Connection.over_store(options.store, options.program)
    raise Halt("say which desk: --desk PORT of one that is served, or --store FILE", Status.WORDS)


@contextlib.contextmanager
def looking(options):
    """A looker into the desk that the options name, with its exported tables where they are to be had."""
    tables = None
    if options.export is not None:
        tables = kept.read_export(pathlib.Path(options.export).read_bytes())
    elif options.store is not None:
        tables = kept.export_of(options.store, options.program)
    with connect(options) as desk:
        version = desk.version()
        if tables is not None and tables.version != version:
            raise Halt(f"the export is of a desk of {tables.version} edits, and this one has {version}: export it anew", Status.WORDS)
        yield Looker(desk, tables)


def write(body):
    """Writes the desk's bytes as they are, behind what was printed."""
    sys.stdout.flush()
    sys.stdout.buffer.write(body)
    sys.stdout.buffer.flush()


def do_ask(options):
    """Asks by name, and shows the desk's text whole, with a reading above it whose lines begin with `#`."""
    with looking(options) as looker:
        words = {key: getattr(options, key) for key in ask.QUESTIONS[options.question].words}
        try:
            body, lines = ask.asked(looker, options.question, words)
        except ask.Nothing as nothing:
            print("# The desk keeps no such code, or it isn't what was asked about.")
            write(nothing.body)
            return Status.FAULTS
    for line in lines:
        print(f"# {line}".rstrip())
    write(body)
    return Status.DONE


def do_gaps(options):
    """Looks for what is missing below a product before its answer may be signed; the status is 1 where something is."""
    _need_tables_for_days(options)
    with looking(options) as looker:
        found = gaps.look(looker, options.code, options.older_than)
    for line in found.lines():
        print(line)
    return Status.DONE if found.is_whole else Status.FAULTS


def _need_tables_for_days(options):
    if options.older_than is not None and options.store is None and options.export is None:
        raise Halt("no question is answered on the day of a declaration: --older-than needs --store or --export", Status.WORDS)


def do_sheet(options):
    """Makes one page for the file, as text and with --html as a page that prints well; the status is 1 where something is missing."""
    _need_tables_for_days(options)
    with looking(options) as looker:
        try:
            made = sheet.make(lambda: Looker(looker.desk, looker.kept), options.code, options.day, options.older_than)
        except NoSuchCode as fault:
            raise Halt(f"the desk says `{fault.words}`, so there is nothing to sign", Status.FAULTS) from fault
        except sheet.Restless as fault:
            raise Halt(str(fault)) from fault
    if options.output:
        pathlib.Path(options.output).write_text(sheet.text(made), "utf-8")
    if options.html:
        pathlib.Path(options.html).write_text(sheet.page(made), "utf-8")
    if not options.output and not options.html:
        write(sheet.text(made).encode())
    return Status.DONE if made.found.is_whole else Status.FAULTS


def do_page(options):
    """Serves a small page at 127.0.0.1 until it is interrupted: products, bills, search, each with the desk's text beside it."""
    with looking(options) as looker:
        server = page.Page(options.port, looker.desk, looker.kept, options.desk is not None)
        print(f"desk-client: the page is at http://127.0.0.1:{server.server_port}/", flush=True)
        with server:
            server.serve_forever()


def do_declaration(options):
    """Makes a declaration of a supplier's sheet: tells each conversion and each mistake, shows the declaration, and writes it to --output."""
    chosen = supplier_sheet.Options(
        options.supplier, options.number, options.day, dict(options.column), options.decimal, options.portion
    )
    separator = Separator[options.separator.upper()] if options.separator else None
    converted = supplier_sheet.Converter(options.sheet, chosen).convert(pathlib.Path(options.sheet).read_bytes(), separator)
    for note in converted.notes:
        print(f"{options.sheet}: {note}")
    for fault in converted.faults:
        print(fault)
    if converted.faults:
        print(f"{_counted(len(converted.faults), 'mistake')}; there is no declaration")
        return Status.FAULTS
    text = converted.declaration.csv()
    print("the declaration:")
    for line in text.decode().splitlines():
        print(f"    {line}")
    if options.output:
        pathlib.Path(options.output).write_bytes(text)
        print(f"written to {options.output}")
    return Status.DONE


def do_enter(options):
    """Reads all files first, and enters nothing where one has a mistake of form."""
    chosen = entries.Options(dict(options.column), dict(options.value), options.decimal, options.add_up)
    loaded = [entries.load(path, chosen) for path in options.files]
    for file in loaded:
        for note in file.notes:
            print(f"{file.name}: {note}")
    faults = [fault for file in loaded for fault in file.faults]
    for fault in faults:
        print(fault)
    if faults:
        print(f"{_counted(len(faults), 'mistake')}; nothing is entered")
        return Status.FAULTS
    if options.dry_run and options.desk is not None:
        rows = sum(len(file.entries) for file in loaded)
        print(f"{_counted(rows, 'row')} of good form; whether the desk takes them can be tried over a store alone (--store), and isn't")
        return Status.DONE
    if options.dry_run:
        return _enter_into_a_copy(options, loaded)
    with connect(options) as desk:
        return _enter_loaded(options, desk, loaded)


def _counted(number, word):
    return f"{number} {word}{'' if number == 1 else 's'}"


def _enter_loaded(options, desk, loaded):
    report = enter.enter_all(loaded, enter.Enterer(desk, options.again), print)
    for line in report.lines():
        print(line)
    print(f"version {desk.version()}")
    return Status.FAULTS if report.faults else Status.DONE


def _enter_into_a_copy(options, loaded):
    """Enters into a copy of the store, which is thrown away."""
    if options.store is None:
        connect(options)
    with tempfile.TemporaryDirectory(prefix="desk-client.") as folder:
        copy = pathlib.Path(folder) / "copy.db"
        if pathlib.Path(options.store).exists():
            # As long as a desk has the store, a copy of it may be torn; then this says so.
            with connect(options) as desk:
                desk.version()
            for end in ("", "-wal"):
                if pathlib.Path(f"{options.store}{end}").exists():
                    shutil.copyfile(f"{options.store}{end}", f"{copy}{end}")
        with Connection.over_store(copy, options.program) as desk:
            status = _enter_loaded(options, desk, loaded)
    print("this was tried on a copy; the store is as it was")
    return status


def _pair(text):
    """The two words of `HEADING=FIELD`."""
    given, sign, wanted = text.rpartition("=")
    if not sign or not given or not wanted:
        raise argparse.ArgumentTypeError(f"`{text}` isn't of the form GIVEN=WANTED")
    return given, wanted


def _day(text):
    try:
        return amounts.day_of(text)
    except Wrong as wrong:
        raise argparse.ArgumentTypeError(f"{wrong.what}: {wrong.remedy}") from None


def _question_day(text):
    day = _day(text)
    if day < FIRST_DAY_TO_ASK:
        raise argparse.ArgumentTypeError(f"the desk answers from {FIRST_DAY_TO_ASK} on")
    return day


def _read(reader):
    """A type of a word that a reader of client.forms takes."""
    def read(text):
        try:
            return reader(text)
        except Wrong as wrong:
            raise argparse.ArgumentTypeError(f"`{text}`: {wrong.what}; {wrong.remedy}") from None
    return read


def _year(text):
    if not text.isdecimal() or not 2008 <= int(text) <= 2099:
        raise argparse.ArgumentTypeError("a year is from 2008 to 2099")
    return int(text)


def _port(text):
    if not text.isdecimal() or not 1 <= int(text) <= 65535:
        raise argparse.ArgumentTypeError("a port is a number from 1 to 65535")
    return int(text)


def _decimal(text):
    try:
        return {sign.title: sign for sign in amounts.DecimalSign}[text]
    except KeyError:
        raise argparse.ArgumentTypeError("write comma or point") from None


def _desk_words(parser):
    """The options that say which desk."""
    which = parser.add_mutually_exclusive_group()
    which.add_argument("--desk", type=_port, metavar="PORT", help="the port of this machine at which the desk is served")
    which.add_argument("--store", metavar="FILE", help="the file that keeps the desk, while no desk has it open")
    program = os.environ.get("DESK_PROGRAM", str(TOP / "bin/desk"))
    parser.add_argument("--program", default=program, help="the desk's program, for --store (bin/desk, or what DESK_PROGRAM names)")


def _table_words(parser):
    """The options that say how a table is read."""
    parser.add_argument("--column", type=_pair, action="append", default=[], metavar="HEADING=FIELD", help="what a column is")
    parser.add_argument("--decimal", type=_decimal, metavar="comma|point", help="what stands before decimals")


def _enter_parser(commands):
    parser = commands.add_parser("enter", help="enter declarations, edits and tables", description=do_enter.__doc__)
    parser.add_argument("files", nargs="+", metavar="FILE", help="declarations, edits as lines of JSON, or tables with headings, in order")
    parser.add_argument("--dry-run", action="store_true", help="say what would be refused, and change nothing")
    parser.add_argument("--again", action="store_true", help="enter rows once more that were entered before and are overwritten")
    parser.add_argument("--add-up", action="store_true", help="add up the counts of lines with the same parent and child")
    parser.add_argument("--value", type=_pair, action="append", default=[], metavar="GIVEN=WANTED", help="what a value in a table stands for")
    _table_words(parser)
    _desk_words(parser)
    parser.set_defaults(do=do_enter)


def _looking_words(parser):
    """The options of commands that look into a desk."""
    _desk_words(parser)
    parser.add_argument("--export", metavar="FILE", help="an export of this desk, which tells over a port what no question is answered on")


# The type of each word of a question, and what is said of it.
QUESTION_WORDS = {
    "code": (_read(forms.code_of), "the code of a part or a material"),
    "kind": (_read(forms.kind_of), "a kind of equipment, such as 3"),
    "day": (_question_day, "the day on which it is placed on the market"),
    "year": (_year, "the year of the shipments"),
}


def _ask_parser(commands):
    parser = commands.add_parser("ask", help="ask a question, and read the answer", description=do_ask.__doc__)
    questions = parser.add_subparsers(required=True, metavar="QUESTION", dest="question")
    for name, question in ask.QUESTIONS.items():
        words = questions.add_parser(name, help=" ".join(question.words).upper())
        for word in question.words:
            kind, told = QUESTION_WORDS[word]
            words.add_argument(word, type=kind, metavar=word.upper(), help=told)
        _looking_words(words)
    parser.set_defaults(do=do_ask)


def _gaps_parser(commands):
    parser = commands.add_parser("gaps", help="what is missing below a product", description=do_gaps.__doc__)
    parser.add_argument("code", type=_read(forms.code_of), metavar="CODE", help="the product")
    parser.add_argument("--older-than", type=_day, metavar="DAY", help="tell materials that were declared before this day")
    _looking_words(parser)
    parser.set_defaults(do=do_gaps)


def _sheet_parser(commands):
    parser = commands.add_parser("sheet", help="one page for the file", description=do_sheet.__doc__)
    parser.add_argument("code", type=_read(forms.code_of), metavar="CODE", help="the product")
    parser.add_argument("day", type=_question_day, metavar="DAY", help="the day on which it is placed on the market")
    parser.add_argument("--older-than", type=_day, metavar="DAY", help="tell materials that were declared before this day")
    parser.add_argument("-o", "--output", metavar="FILE", help="write the text to this file")
    parser.add_argument("--html", metavar="FILE", help="write a page to this file")
    _looking_words(parser)
    parser.set_defaults(do=do_sheet)


def _page_parser(commands):
    parser = commands.add_parser("page", help="a local web page", description=do_page.__doc__)
    parser.add_argument("--port", type=_port, required=True, help="the port of 127.0.0.1 at which the page is")
    _looking_words(parser)
    parser.set_defaults(do=do_page)


def _declaration_parser(commands):
    parser = commands.add_parser("declaration", help="make a declaration of a supplier's sheet", description=do_declaration.__doc__)
    parser.add_argument("sheet", metavar="SHEET", help="the sheet, as CSV or as text with tabs")
    parser.add_argument("-o", "--output", metavar="FILE", help="write the declaration to this file")
    parser.add_argument("--supplier", metavar="CODE", help="the supplier's code, where the sheet doesn't have it")
    parser.add_argument("--number", metavar="N", help="the number of the declaration, where the sheet doesn't have it")
    parser.add_argument("--day", metavar="DAY", help="the day of the declaration, where the sheet doesn't have it")
    parser.add_argument("--portion", action="store_true", help="declare a portion of one gram of each material without a mass")
    parser.add_argument("--separator", choices=[separator.name.lower() for separator in Separator], help="what stands between two cells")
    _table_words(parser)
    parser.set_defaults(do=do_declaration)


def parser_of_words():
    parser = argparse.ArgumentParser(prog="desk-client", description="A client of the desk for people. docs/CLIENT.md shows each command.")
    commands = parser.add_subparsers(required=True, metavar="COMMAND")
    _enter_parser(commands)
    _declaration_parser(commands)
    _ask_parser(commands)
    _gaps_parser(commands)
    _sheet_parser(commands)
    _page_parser(commands)
    return parser


def main(words):
    """Does the command that the words are, and gives its status."""
    options = parser_of_words().parse_args(words)
    try:
        return options.do(options)
    except Halt as halt:
        print(f"desk-client: {halt}", file=sys.stderr)
        return halt.status
    except (DeskFault, answers.UnreadableAnswer, kept.UnreadableExport) as fault:
        print(f"desk-client: {fault}", file=sys.stderr)
        return Status.NO_DESK
    except OSError as fault:
        print(f"desk-client: {fault}", file=sys.stderr)
        return Status.NO_DESK
