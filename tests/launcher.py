"""Tests of bin/desk itself: which program it runs, whoever starts it and wherever it stands, and how it ends.

They are made in a copy of the repository's program crates, with a release of the program that bin/desk runs.
"""
import contextlib
import gzip
import hashlib
import os
import pathlib
import shutil
import signal
import subprocess
import tempfile
import time

top = pathlib.Path(__file__).resolve().parent.parent
ANSWER = b"check 2024-01-23 kind 3 supplier ACME declaration 7\ncompliant\n"
DECLARATION = b"D,1,ACME,7,2024-01-23\n"
CHECK = ["check", "2024-01-23", "3"]
# Where the toolchain isn't.
PLAIN_PATH = ":".join(it for it in ("/usr/local/bin", "/usr/bin", "/bin") if not os.path.exists(f"{it}/rt"))
NOBODY = ["setpriv", "--reuid=65534", "--regid=65534", "--clear-groups"]


class Copy:
    """A copy of what bin/desk needs, in a folder of its own."""

    def __init__(self, folder):
        self.folder = folder
        self.home = folder.parent / "home"

    @property
    def desk(self):
        return self.folder / "bin/desk"

    @property
    def source(self):
        return self.folder / "crates/desk_text/src/lib.rt"

    def run(self, *words, as_user=(), given=DECLARATION, **options):
        environment = {"PATH": PLAIN_PATH, "HOME": str(self.home)}
        return subprocess.run([*as_user, self.desk, *words], input=given, capture_output=True, env=environment, timeout=60, **options)

    def fault_of_check(self, *words, **options):
        """What is wrong with the answer to a good declaration, or None."""
        ran = self.run(*words, *CHECK, **options)
        if (ran.returncode, ran.stdout, ran.stderr) == (0, ANSWER, b""):
            return None
        return f"status {ran.returncode}, {ran.stdout[:200]!r}, {ran.stderr[-300:]!r}"


def program_of(desk):
    """The file of the program that bin/desk becomes for a session."""
    process = subprocess.Popen([desk, "session"], stdin=subprocess.PIPE, stdout=subprocess.DEVNULL)
    try:
        shell = os.path.realpath(shutil.which("bash"))
        for _ in range(6000):
            program = os.path.realpath(f"/proc/{process.pid}/exe")
            if program != shell and os.path.basename(program).startswith("desk"):
                return pathlib.Path(program)
            time.sleep(0.01)
        raise RuntimeError("bin/desk doesn't become the program")
    finally:
        process.stdin.close()
        process.wait()


@contextlib.contextmanager
def copies(program, compressed):
    """A copy of the repository whose release is this program, of its sources."""
    with tempfile.TemporaryDirectory(prefix="desk-launcher.") as room:
        os.chmod(room, 0o755)
        folder = pathlib.Path(room) / "copy"
        ignored = shutil.ignore_patterns("out", "must-fail", "__pycache__")
        for part in ("bin", "scripts", "crates"):
            shutil.copytree(top / part, folder / part, ignore=ignored)
        for part in ("crates.txt", "HANDLES"):
            shutil.copy(top / part, folder)
        (folder / "release").mkdir()
        (folder / "release/desk.gz").write_bytes(compressed)
        sources = subprocess.run(
            ["bash", "-c", '. "$0/scripts/program.sh" && checksum_of_sources "$0"', folder], capture_output=True, text=True, check=True
        ).stdout.strip()
        (folder / "release/desk.txt").write_text(f"program: {hashlib.sha256(program).hexdigest()}\nsources: {sources}\nproved: nothing\n")
        yield Copy(folder)


def help_is_written(copy):
    for words in ([], ["help"], ["-h"], ["--help"]):
        ran = copy.run(*words)
        if ran.returncode or not ran.stdout.startswith(b"usage: bin/desk COMMAND") or ran.stderr:
            return f"{words}: status {ran.returncode}, {ran.stdout[:60]!r}, {ran.stderr!r}"
    return None


def the_version_names_the_sources(copy):
    ran = copy.run("--version")
    sources = (copy.folder / "release/desk.txt").read_text().splitlines()[1].removeprefix("sources: ")
    lines = ran.stdout.decode().splitlines()
    wanted = [f"sources  {sources}", "release  of these sources", "released program proved with  nothing", "toolchain here  none"]
    return None if ran.returncode == 0 and lines[1:] == wanted else f"{lines}"


def a_changed_source_is_told_without_the_toolchain(copy):
    copy.source.write_text(copy.source.read_text() + "// changed\n")
    ran = copy.run(*CHECK)
    told = ran.stderr.decode()
    if ran.returncode != 70 or ran.stdout or "the sources were changed since the release" not in told or "bin/desk --released" not in told:
        return f"status {ran.returncode}, {ran.stdout!r}, {told!r}"
    return copy.fault_of_check("--released")


def sources_that_are_changed_back_start_at_once(copy):
    text = copy.source.read_text()
    for change in (lambda: copy.source.write_text(text + "\n"), lambda: copy.source.with_name("more.rt").write_text("")):
        if fault := copy.fault_of_check():
            return fault
        change()
        if copy.run(*CHECK).returncode != 70:
            return "a change isn't seen"
        copy.source.write_text(text)
        copy.source.with_name("more.rt").unlink(missing_ok=True)
    return copy.fault_of_check()


def a_folder_that_may_not_be_written_does(copy):
    copy.home.mkdir()
    shutil.chown(copy.home, 65534, 65534)
    if fault := copy.fault_of_check(as_user=NOBODY):
        return fault
    return None if not (copy.folder / "out").exists() else "somebody who may not write wrote"


def a_second_user_runs_what_the_first_unpacked(copy):
    fault = copy.fault_of_check() or copy.fault_of_check(as_user=NOBODY)
    return fault or (f"{copy.home} was made" if copy.home.exists() else None)


def a_copied_folder_starts(copy):
    if fault := copy.fault_of_check():
        return fault
    other = Copy(copy.folder.parent / "other")
    shutil.copytree(copy.folder, other.folder)
    shutil.rmtree(copy.folder)
    return other.fault_of_check() or other.fault_of_check()


def a_link_starts(copy):
    link = copy.folder.parent / "link"
    link.symlink_to(copy.desk)
    ran = subprocess.run([link, *CHECK], input=DECLARATION, capture_output=True, cwd="/")
    return None if ran.stdout == ANSWER else f"{ran}"


def an_unpacked_program_that_was_replaced_is_unpacked_again(copy):
    if fault := copy.fault_of_check():
        return fault
    unpacked = copy.folder / "out/desk-released"
    unpacked.write_bytes(b"#!/bin/sh\necho wrong\n")
    return copy.fault_of_check()


def take_signals():
    """Lets a program take the signals that whoever started the tests may ignore."""
    for number in (signal.SIGINT, signal.SIGTERM, signal.SIGHUP):
        signal.signal(number, signal.SIG_DFL)


def a_signal_ends_the_program_too(copy):
    for number, status in ((signal.SIGINT, 130), (signal.SIGTERM, 143), (signal.SIGHUP, 129)):
        store = copy.folder.parent / f"{number.name}.db"
        words = [copy.desk, "import", "--store", store]
        started = subprocess.Popen(
            words, stdin=subprocess.PIPE, stdout=subprocess.PIPE, start_new_session=True, preexec_fn=take_signals
        )
        for _ in range(6000):
            if store.exists():
                break
            time.sleep(0.01)
        # (as a terminal gives it: to all programs of the line)
        os.killpg(started.pid, number) if number == signal.SIGINT else started.send_signal(number)
        if started.wait(30) != status or started.stdout.read():
            return f"{number.name}: status {started.returncode}"
        started.stdin.close()
        if copy.run("export", "--store", str(store)).returncode:
            return f"{number.name}: the program still has the store open"
    return None


def a_store_that_another_desk_has_open_is_told(copy):
    store = copy.folder.parent / "open.db"
    with subprocess.Popen([copy.desk, "session", "--store", store], stdin=subprocess.PIPE, stdout=subprocess.PIPE) as first:
        first.stdin.write(b"GET /version HTTP/1.1\r\n\r\n")
        first.stdin.flush()
        first.stdout.readline()
        ran = copy.run("audit", "2024-01-23", "--store", str(store))
        first.stdin.close()
    told = f"desk: the store {store} can't be used: it is open in another program, {first.pid} (".encode()
    return None if (ran.returncode, ran.stdout) == (4, b"desk: store\n") and ran.stderr.startswith(told) else f"{ran}"


def explained(copy, store, as_user=()):
    """What bin/desk says of a store that can't be used, behind the store's name."""
    ran = copy.run("export", "--store", str(store), as_user=as_user)
    told = ran.stderr.decode().partition(f"desk: the store {store} can't be used: ")
    return told[2].strip() if (ran.returncode, ran.stdout, told[0]) == (4, b"desk: store\n", "") else f"{ran}"


def a_store_that_is_cut_short_is_told(copy):
    store = copy.folder.parent / "cut.db"
    copy.run("session", "--store", str(store), given=b"")
    whole = store.read_bytes()
    store.write_bytes(whole[: len(whole) // 4096 * 2048])
    told = explained(copy, store)
    return None if told == "the database is cut short: it has fewer bytes than its head says" else told


def a_store_that_may_not_be_used_is_told(copy):
    folder = copy.folder.parent / "ours"
    folder.mkdir()
    store = folder / "store.db"
    copy.run("session", "--store", str(store), given=b"")
    for mode, of_folder, wanted in (
        (0o600, 0o755, "you may not read it"),
        (0o644, 0o755, "you may not write it, and each command writes a log beside it"),
        (0o666, 0o755, f"you may not write into the folder {folder}/, where it and its log stand"),
        (0o666, 0o700, f"you may not enter the folder {folder}/"),
    ):
        store.chmod(mode)
        folder.chmod(of_folder)
        if (told := explained(copy, store, NOBODY)) != wanted:
            return told
    return None


def mounted(words):
    return subprocess.run(["mount", *words], capture_output=True).returncode == 0


def can_mount():
    with tempfile.TemporaryDirectory() as room:
        return mounted(["-t", "tmpfs", "-o", "size=4k", "tmpfs", room]) and not subprocess.run(["umount", room]).returncode


def a_full_disk_is_told(copy):
    disk = copy.folder.parent / "disk"
    disk.mkdir()
    if not mounted(["-t", "tmpfs", "-o", "size=300k", "tmpfs", disk]):
        return "no disk could be mounted"
    try:
        # (one page is left for the store, and then none)
        (disk / "rest").write_bytes(bytes(290_000))
        words = [str(copy.desk), "export", "--store", str(disk / "store.db")]
        told = subprocess.run(words, capture_output=True).stderr.decode().splitlines()[-1:]
        if told != [f"desk: the store {disk}/store.db can't be used: the disk is full"]:
            return f"{told}"
        with (disk / "answer").open("wb") as answer:
            ran = subprocess.run([copy.desk, *CHECK], input=DECLARATION, stdout=answer, stderr=subprocess.PIPE)
        told = b"desk: standard output has no room: the disk is full; what was written is at most the beginning of an answer\n"
        return None if (ran.returncode, ran.stderr) == (3, told) else f"{ran}"
    finally:
        subprocess.run(["umount", disk])


def trial_fault(test, given):
    """What a test finds wrong in a copy of its own, or None."""
    with copies(*given) as copy:
        return test(copy)


def found_tests():
    """The tests of bin/desk by what they need: a word for that, whether it is here, and the tests."""
    is_root = os.geteuid() == 0 and shutil.which("setpriv") is not None
    yield "nothing", True, [
        help_is_written, the_version_names_the_sources, a_changed_source_is_told_without_the_toolchain,
        sources_that_are_changed_back_start_at_once, a_copied_folder_starts, a_link_starts,
        an_unpacked_program_that_was_replaced_is_unpacked_again, a_signal_ends_the_program_too,
        a_store_that_another_desk_has_open_is_told, a_store_that_is_cut_short_is_told,
    ]
    yield "root and setpriv", is_root, [
        a_folder_that_may_not_be_written_does, a_second_user_runs_what_the_first_unpacked, a_store_that_may_not_be_used_is_told
    ]
    yield "to mount a disk", is_root and can_mount(), [a_full_disk_is_told]


def left_out():
    """What tests need that is not here, each with how many there are."""
    for need, is_here, tests in found_tests():
        if not is_here:
            yield need, len(tests)


def tests(desk):
    """The tests of bin/desk: a name, a function that gives what is wrong or None, and what it is given."""
    program = program_of(desk).read_bytes()
    given = program, gzip.compress(program, 1)
    for _, is_here, tests in found_tests():
        for test in tests if is_here else []:
            yield f"launcher: {test.__name__.replace('_', ' ')}", trial_fault, (test, given)
