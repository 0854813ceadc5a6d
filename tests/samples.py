"""Samples: that each edit of a sample is accepted, in turn, by the number of the tables and the counts of their rows.

The number of the tables is how many edits were accepted, and no two edits of a sample are the same. So each was accepted exactly where
the number is that of the list of edits, which is counted here by its rules and not by the program.
"""
import subprocess

# The sizes that are always tried, and the greatest of those that `--long` tries, each of them.
SHORT = (1, 2, 8, 9, 16, 17, 33, 40, 41, 120)
LARGEST = 2000


def counts(size):
    """What a sample of this size comes to: its edits, and the rows of each table."""
    assemblies = -(-size // 8)
    products = min(5, assemblies)
    # Of each article the line to its own material, and from two on that to the next; of each assembly those to its articles, and from
    # the second on that to an assembly before it.
    lines = (size if size == 1 else 2 * size) + size + assemblies - 1
    rows = {"materials": size, "parts": size + assemblies, "lines": lines, "products": products, "candidates": 2, "shipments": products}
    return sum(rows.values()), rows


def sample_fault(program, size):
    """What is wrong with the sample of this size, or None."""
    ran = subprocess.run([*program, "sample", str(size)], stdin=subprocess.DEVNULL, stdout=subprocess.PIPE, timeout=300)
    edits, rows = counts(size)
    told = dict(line.rsplit(" ", 1) for line in ran.stdout.decode().splitlines()[:11])
    wanted = {"version": edits, "substances": 10, "members": 10, **rows, "exemptions": 0}
    found = {name: told.get(name) for name in wanted}
    if ran.returncode == 0 and found == {name: str(count) for name, count in wanted.items()}:
        return None
    return f"status {ran.returncode}, and {found} in place of {wanted}"


def tests(program, is_long):
    """The tests: a title, a function that gives what is wrong or None, and what it is given."""
    # The greatest come first, as they take longest.
    for size in range(LARGEST, 0, -1) if is_long else SHORT:
        yield f"each edit of the sample of {size} is accepted", sample_fault, (program, size)
