"""Reads antt modules: their text without comments, what their `use` lines bring, their declarations, and which of them Lib.antt reaches."""
import functools
import re
from dataclasses import dataclass, field
from pathlib import Path

# a quoted text, a comment to the line's end, or the marks of one in braces
QUIET = re.compile(r'"(?:\\.|[^"\\])*"|(?<![^\s(){}.;,])--[^\n]*|\{-|-\}')
USE = re.compile(r"^ *(?:ghost )?(?:unfoldable )?(?:pub )?use ([^\s{;]+?)(?:\.\{([^}]*)\})?(?: as ([^\s;]+))?;?$", re.M)


@dataclass
class Module:
    key: str  # as `theorems.specs.Sizes`
    path: Path
    text: str  # without comments and quoted texts
    names: dict = field(default_factory=dict)  # what `use` lines bring: name -> (key of its module, its name there)
    aliases: dict = field(default_factory=dict)  # name -> key

    def __post_init__(self):
        for target, items, alias in USE.findall(self.text):
            key = module_key(target)
            for item in filter(None, (i.strip() for i in items.split(","))):
                there, _, here = item.partition(" as ")
                self.names[here.strip() or there.split(".")[-1]] = (key, there)
            if not items:
                self.aliases[alias or target.split(".")[-1]] = key

    def resolved(self, name):
        """The module and the name that a name stands for here: its own where no `use` line brings it."""
        if name in self.names:
            return self.names[name]
        alias, _, rest = name.rpartition(".")
        return (self.aliases.get(alias, module_key(alias)), rest) if alias else (self.key, name)

    def declarations(self):
        """The texts at the margin, each with the lines that belong to it."""
        return re.split(r"\n(?=\S)", self.text)


def module_key(path):
    """`Rattle.a.specs.B` of a crate of this repository is `a.specs.B`; a path of the kit is its own key."""
    root, _, rest = path.partition(".")
    return rest if root == "Rattle" and rest.partition(".")[0] in crates() else path


def without_comments(text):
    """The text with its lines, and nothing in place of comments and quoted texts."""
    out, at, depth = [], 0, 0
    for mark in QUIET.finditer(text):
        kept = text[at : mark.start()]
        out.append(kept if depth == 0 else "\n" * kept.count("\n"))
        at = mark.end()
        if mark[0] == "{-":
            depth += 1
        elif mark[0] == "-}":
            depth = max(0, depth - 1)
    return "".join(out) + (text[at:] if depth == 0 else "")


@functools.cache
def crates():
    """The crates of crates.txt, in its order; a line is `NAME: DEP ..`, with words of what is built between name and colon."""
    return re.findall(r"^[ \t]*(\w+)[^:\n]*:", re.sub(r"#.*", "", Path("crates.txt").read_text()), re.M)


def reached(crate, part):
    """The modules of a crate's specs or proofs that Lib.antt reaches by `mod` lines."""
    root = Path(f"crates/{crate}/{part}")
    todo = [root / "Lib.antt"] if (root / "Lib.antt").exists() else []
    while todo:
        path = todo.pop()
        name = ".".join(path.relative_to(root).with_suffix("").parts)
        module = Module(f"{crate}.{part}.{name}", path, without_comments(path.read_text()))
        below = root if path == root / "Lib.antt" else path.with_suffix("")
        todo.extend(below / f"{child}.antt" for child in re.findall(r"^(?:pub )?mod (\S+)$", module.text, re.M))
        yield module


def fields(record):
    """The types of a record's fields, from its declaration."""
    return [part.partition(" : ")[2] for part in re.split(r"\n  (?=\S)", record)[1:]]
