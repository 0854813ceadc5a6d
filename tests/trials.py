"""The trials of scripts/ in their short forms, or in the longer that some have for --long, as tests: each of their checks is one."""
import importlib.machinery
import importlib.util
import pathlib
import sys

scripts = pathlib.Path(__file__).resolve().parent.parent / "scripts"
NAMES = ("against-itself", "bad-clients", "bad-stores", "real-clients", "spoiled-stores", "soak")


class Noted:
    """Takes the checks of a trial, and notes each by the trial's name."""

    def __init__(self, name, tally):
        self.name, self.tally = name, tally

    def note(self, name, fault, said=""):
        self.tally.note(f"{self.name}: {name}", fault)

    def leave_out(self, why, count=1):
        self.tally.leave_out(why, count)

    def remark(self, text):
        pass


def script_of(name):
    """A script as a module."""
    if str(scripts) not in sys.path:
        sys.path.append(str(scripts))
    loader = importlib.machinery.SourceFileLoader(name.replace("-", "_"), str(scripts / name))
    module = importlib.util.module_from_spec(importlib.util.spec_from_loader(loader.name, loader))
    loader.exec_module(module)
    return module


def run(name, program, tally, is_long=False):
    """Runs the short form of a trial over the program, or its long form where it has one."""
    noted = Noted(f"scripts/{name}", tally)
    try:
        script = script_of(name)
        form = script.long if is_long and hasattr(script, "long") else script.short
        form(program, noted)
    except Exception as error:  # What breaks a trial off is told as a test that failed.
        noted.note("it goes to its end", f"{type(error).__name__}: {error}")
