"""The crates of the repository."""

from pathlib import Path

ROOT = Path(__file__).resolve().parent.parent


def reached(*names):
    """The named crates and all crates of the repository that they use."""
    uses = {}
    for line in (ROOT / "crates.txt").read_text().splitlines():
        name, _, used = line.partition("#")[0].partition(":")
        uses[name.strip()] = used.split()
    found = []
    todo = list(names)
    while todo:
        name = todo.pop()
        if name in uses and name not in found:
            found.append(name)
            todo += uses[name]
    return found
