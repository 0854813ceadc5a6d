"""The commands that the documents show, as tests: each is run, in the order of its document, and answers as the document says.

A document's commands stand in blocks of the language `sh`. They are run by one shell in a copy of `examples/`, `scripts/` and the client,
with the tested program as `bin/desk`. A block without a language right behind one has what it writes, or, where it begins with `-- `, a
part of that; then those behind it that begin so have later parts. The commands of `bare` are run elsewhere: the gate and these tests
themselves.
The blocks of docs/HTTP.md talk to one server, so without curl the whole document is left out.
"""
import itertools
import pathlib
import re
import shutil
import subprocess
import sys
import tempfile

top = pathlib.Path(__file__).resolve().parent.parent
sys.path.insert(0, str(top / "scripts"))
from served import free_port  # noqa: E402 (the line above has to come first)

DOCUMENTS = (
    "README.md", "docs/GUIDE.md", "docs/SUPPLIERS.md", "docs/HTTP.md", "docs/CLIENT.md", "docs/FORMATS.md", "docs/RULES.md",
    "docs/ARCHITECTURE.md", "docs/PROOF.md", "examples/acme/WALK.md"
)
# The tools of others that all commands of a document need.
NEEDS = {"docs/HTTP.md": "curl"}
# The port that the documents name. In its place each trial takes one that nobody has.
PORT = "7171"
BARE = re.compile(r"^(tests/run|\.ci/run|rt |scripts/)")
# What a reader has that these commands take for granted: a table that a spreadsheet saved.
GIVEN = {"export.csv": "examples/padded.csv"}


def blocks_of(document):
    """The blocks of commands, each with the blocks of its output."""
    found = re.findall(r"^```(\w*)\n(.*?)^```$", (top / document).read_text(), re.M | re.S)
    for place, (language, text) in enumerate(found):
        if language == "sh":
            follow = [it for _, it in itertools.takewhile(lambda block: not block[0], found[place + 1:])]
            yield text, follow[:1] + list(itertools.takewhile(is_part, follow[1:]))


def is_part(wanted):
    """Whether a block of output shows a part of it."""
    return wanted.startswith("-- ")


def is_there(document, command):
    """Whether the machine has the tools of others that a document needs and that this block begins with; nothing else may be missing."""
    needed = [NEEDS.get(document), "sqlite3" if command.split()[0] == "sqlite3" else None]
    return all(shutil.which(tool) for tool in needed if tool)


def commands_of(document):
    return [(text, wanted) for text, wanted in blocks_of(document) if not BARE.match(text) and is_there(document, text)]


def lay_out(room, program):
    """What the commands find: the examples, the scripts, and the tested program."""
    for name in ("examples", "scripts", "docs", "client"):
        shutil.copytree(top / name, room / name, ignore=shutil.ignore_patterns("__pycache__"))
    for name, source in GIVEN.items():
        shutil.copy(top / source, room / name)
    (room / "bin").mkdir()
    (room / "bin/desk").write_text('#!/bin/sh\nexec ' + " ".join(f"'{word}'" for word in program) + ' "$@"\n')
    (room / "bin/desk").chmod(0o755)
    shutil.copy(top / "bin/desk-client", room / "bin")


def fault_of(text, wanted, status, written):
    """What is wrong with a block that was run, or None."""
    shown = text.strip().splitlines()[0]
    # (6 says that a declaration is refused; then the document shows the refusal)
    if status != 0 and not (status == 6 and wanted):
        return f"`{shown}` ends with status {status}"
    rest = written
    for block in wanted:
        before, found, rest = rest.partition(block)
        if not found or not is_part(block) and (before or rest):
            return f"`{shown}` writes {written[:200]!r}, and the document shows {block[:200]!r}"
    return None


def document_fault(program, document):
    """Runs the commands of a document in one shell: what is wrong, or None."""
    commands = commands_of(document)
    port = str(free_port())
    with tempfile.TemporaryDirectory(prefix="desk-test.") as folder:
        room = pathlib.Path(folder) / "room"
        room.mkdir()
        lay_out(room, program)
        lines = []
        for place, (text, _) in enumerate(commands):
            lines.append(f"{{\n{text.replace(PORT, port)}}} > {folder}/{place}.out\necho $? > {folder}/{place}.status")
        script = pathlib.Path(folder) / "commands.sh"
        script.write_text("\n".join(lines) + "\n")
        subprocess.run(["bash", script], cwd=room, stdin=subprocess.DEVNULL, stderr=subprocess.DEVNULL, timeout=300)
        for place, (text, wanted) in enumerate(commands):
            status = pathlib.Path(folder) / f"{place}.status"
            if not status.is_file():
                return f"`{text.strip().splitlines()[0]}` isn't reached"
            if fault := fault_of(text, wanted, int(status.read_text()), (pathlib.Path(folder) / f"{place}.out").read_text()):
                return fault
    return None


def title_of(document):
    return f"{document} shows commands that do what it says"


def left_out():
    """The tests that need what is not here: a name, and what it needs."""
    for document, tool in NEEDS.items():
        if not shutil.which(tool):
            yield title_of(document), tool


def tests(program):
    """The tests of all documents that show commands: a name, a function that gives what is wrong or None, and what it is given."""
    for document in DOCUMENTS:
        if commands_of(document):
            yield title_of(document), document_fault, (program, document)
