#!/usr/bin/env python3
"""reading.py [--print]: is README.md's reading list whole? Run in the repository's root.

From the words of every public function's promise it follows each definition to the words that it is made of, and asks that README.md names
every file of specs/ and src/ that one of them stands in, and the kit's module for each word that is the kit's. --print lists the files."""
import re
import sys
from pathlib import Path

import antt
from functions import functions, source

START = re.compile(r"\s*(?:(?:abbrev|unfoldable)\s+)?(?:pub\s+)?(?:record\s+|data\s+)?([^\s:(){}]+)\s*(?:[({].*)?:(?:\s|$)")
WORD = re.compile(r"[^\s(){};,]+")


def libraries():
    """The crates that others can use."""
    return [crate for crate in antt.crates() if Path(f"crates/{crate}/src/lib.rt").exists()]


def defined(module):
    """Of each name that a module defines, the words of its text; fields and constructors are of their type's."""
    found, name, depth = {}, "", 0
    for line in module.text.split("\n"):
        indent = len(line) - len(line.lstrip())
        if line.lstrip().startswith("module "):
            name, depth = "", indent + 2
        elif (match := START.match(line)) and (not name or indent <= depth):
            name, depth = match[1], indent
        if not line.startswith("use "):
            found.setdefault(name, []).extend(WORD.findall(line))
    return found


def origins(module, word):
    """The modules that a word can come from, each with its name there: an operator stands between its arguments, a field behind a dot."""
    names = [word, word.partition(".")[0], *(n for n in module.names if "◌" in n and word in n.split("◌"))]
    found = [module.names[n] for n in names if n in module.names] + [(module.key, word)]
    owner = word.rpartition(".")[0]
    return found + ([module.resolved(word)] if owner in module.aliases or owner.startswith("Rattle.") else [])


def file_of(key):
    """The file of a module of this repository, that of a declared type being its source; the module itself where it is the kit's."""
    crate, _, path = key.partition(".specs.")
    if crate not in antt.crates():
        return key
    if path.startswith("declared."):
        return f"crates/{crate}/src/{path.split('.')[1]}.rt"
    return f"crates/{crate}/specs/{path.replace('.', '/')}.antt"


def promised():
    """Where the words of the public promises come from."""
    for crate in libraries():
        for f in (f for f in functions(crate) if f.public):
            path = Path(f"crates/{crate}/{f.file}")
            module = antt.Module(f"{crate}.{f.file}", path, "\n".join(source(path)))
            for word in WORD.findall(" ".join(f.facts())):
                yield from (o for o in origins(module, word) if o[0] != module.key)


def followed():
    """Every file, and every module of the kit, that a word of a promise comes from."""
    modules = {m.key: m for crate in libraries() for m in antt.reached(crate, "specs")}
    words = {key: defined(m) for key, m in modules.items()}
    known, waiting, files = set(), list(promised()), set()
    while waiting:
        key, name = waiting.pop()
        if (key, name) in known:
            continue
        known.add((key, name))
        if key not in modules:
            files.add(file_of(key))
        elif name in words[key]:
            files.add(file_of(key))
            waiting.extend(o for word in words[key][name] for o in origins(modules[key], word))
    return files


def shown():
    """The files and modules that README.md names: `a/b/C.antt`, and `D.antt` behind it for its neighbour."""
    found, folder = set(), ""
    for name in re.findall(r"`([^`\s]+)`", Path("README.md").read_text()):
        if name.endswith((".antt", ".rt")):
            head, _, name = name.rpartition("/")
            folder = head or folder
            name = f"{folder}/{name}"
        found.add(name)
    return found


def main():
    files = followed()
    if "--print" in sys.argv:
        print("\n".join(sorted(files)))
    missing = sorted(files - shown())
    for path in missing:
        print(f"README.md does not name {path}, where words of a promise come from")
    print(f"{len(files)} files and modules have words of a promise, {len(missing)} of them not in README.md")
    sys.exit(1 if missing or not files else 0)


if __name__ == "__main__":
    main()
