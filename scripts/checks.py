"""What the trials of the program share: how they count what they look at, and the program that they are given."""
import argparse
import pathlib


class Checks:
    """Counts checks by how they went, and tells those that went wrong, or all."""

    def __init__(self, are_told=False):
        self.right = self.wrong = self.left_out = 0
        self.are_told = are_told

    def note(self, name, fault, said=""):
        """A check: its name, what is wrong or None, and what may be told of it where it is right."""
        if fault is None:
            self.right += 1
        else:
            self.wrong += 1
        if fault is not None or self.are_told:
            print(f"{'' if fault is None else 'WRONG: '}{name}: {said if fault is None else fault}", flush=True)

    def leave_out(self, why, count=1):
        self.left_out += count
        if self.are_told:
            print(f"{count} left out: {why}")

    def remark(self, text):
        """Something that is neither right nor wrong."""
        if self.are_told:
            print(f"    ({text})")

    def end(self):
        """Tells the sums, and gives the exit status."""
        print(f"{self.right} right, {self.wrong} wrong, {self.left_out} left out")
        return 1 if self.wrong else 0


def same(found, wanted):
    """What is wrong with what was found, or None."""
    return None if found == wanted else f"{found!r}, and wanted is {wanted!r}"


def parser(text):
    """A parser of a script's words, of which the first is the program, with the script's own description."""
    words = argparse.ArgumentParser(description=text, formatter_class=argparse.RawDescriptionHelpFormatter)
    words.add_argument("program", type=lambda it: str(pathlib.Path(it).resolve()), help="the program to try, such as out/desk")
    return words
