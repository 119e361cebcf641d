"""Reads what `rt check` says of a must-fail edit: for what reason each function and each law is refused."""
import re
from pathlib import Path

# A proof that no longer fits the code's shape says nothing of what the code answers.
SHAPE = re.compile(r"has no field|has no `|is not in scope|the borrow checker does not|expected (?:a measure|an invariant) in ")
# What only follows from another error.
FOLLOWS = re.compile(r"`[^`]*` was not admitted|\d+ declarations? that depends? on ")
# What is said of a place; the lines behind it say how the two sides compare.
SAID = re.compile(r"^(note: )?(?:\./)?((?:src|specs|proofs)/[^\s:]+):(\d+):\d+: (error: )?(.*)$", re.M)


def follows(what):
    return FOLLOWS.match(what) or FOLLOWS.match(what.partition(": ")[2])


def path_of(crate, label):
    """Where `tools/edits.py --try` keeps what is said of an edit."""
    return Path(f"target/must-fail/{crate}/{label}.log")


class Log:
    """The errors of a log, and what is left open in a function's text, each as where and what; the functions, each with what is said of it."""

    def __init__(self, crate, label):
        path = path_of(crate, label)
        text = path.read_text() if path.exists() else ""
        self.there = bool(text)
        self.functions = dict(re.findall(rf"^fn {crate}::(\S+): (.*)$", text, re.M))
        said = [m.groups() for m in SAID.finditer(text)]
        self.errors = [(file, what) for _, file, _, error, what in said if error]
        self.open = [(file, int(line), what) for note, file, line, _, what in said if note and what.startswith("it is not proved")]

    def refuses(self, f):
        """Is a function refused for a fact: is a goal of its own false or its proof wrong, and does that proof fit its code?"""
        folder = f"proofs/{f.name.replace('::', '/')}/"
        status = self.functions.get(f.name, "proved")
        errors = [what for where, what in self.errors if where.startswith(folder) and not follows(what)]
        left = [what for where, line, what in self.open if where == f.file and f.first <= line <= f.last]
        fits = not any(SHAPE.search(e) for e in [*errors, status])
        return status.startswith(("not proved", "no proof")) and fits and bool(errors + left)

    def refuses_law(self, file, law):
        """Is a law refused for its own sake?"""
        own = [what for where, what in self.errors if where == file and what.startswith(f"`{law}`: ")]
        return any(not follows(what) and not SHAPE.search(what) for what in own)
