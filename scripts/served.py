"""A desk that serves connections at a port of this machine, for those who try it, and what its process holds."""
import pathlib
import signal
import socket
import subprocess

# The most seconds that a client waits for the desk.
PATIENCE = 60


def free_port():
    """A port that nobody has now."""
    with socket.socket() as free:
        free.bind(("127.0.0.1", 0))
        return free.getsockname()[1]


def facts_of(process):
    """What the system says of a process."""
    return dict(line.split(":", 1) for line in pathlib.Path(f"/proc/{process}/status").read_text().splitlines())


def held_by(process):
    """How many files a process has open, how many threads it has, and how many kilobytes of memory."""
    facts = facts_of(process)
    files = len(list(pathlib.Path(f"/proc/{process}/fd").iterdir()))
    return files, int(facts["Threads"]), int(facts["VmRSS"].split()[0])


def addresses_of(process):
    """How many kilobytes of addresses a process has had at most, of which `ulimit -v` is the limit."""
    return int(facts_of(process)["VmPeak"].split()[0])


def is_sanitized(process):
    """Whether a process is watched by an address sanitizer, which takes terabytes of addresses and gives freed memory back late."""
    return addresses_of(process) > 1 << 32


def can_serve(program):
    """Whether the program is one that serves connections: it says so at a port that is taken."""
    with socket.socket() as other:
        other.bind(("127.0.0.1", 0))
        other.listen()
        words = [program, "serve", "--port", str(other.getsockname()[1])]
        return subprocess.run(words, stdin=subprocess.DEVNULL, capture_output=True, timeout=PATIENCE).returncode == 7


class Server:
    """A desk that serves connections at a port."""

    def __init__(self, program, *words, store=None, port=None, **options):
        self.port = port or free_port()
        named = ["--store", str(store)] if store else []
        command = [*program, "serve", "--port", str(self.port), *words, *named]
        self.process = subprocess.Popen(command, stdin=subprocess.DEVNULL, stdout=subprocess.PIPE, stderr=subprocess.PIPE, **options)
        # What it says once the port is open, or nothing where it has ended.
        self.told = self.process.stderr.readline().decode()

    def stop(self, how=signal.SIGTERM):
        """Stops it: the status that it ends with, and what it wrote."""
        self.process.send_signal(how)
        return self.end()

    def end(self):
        """The status that it ends with by itself, and what it wrote."""
        written, _ = self.process.communicate(timeout=PATIENCE)
        return self.process.returncode, written

    def __enter__(self):
        return self

    def __exit__(self, *_):
        if self.process.poll() is None:
            self.process.kill()
        self.process.communicate()
