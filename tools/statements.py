#!/usr/bin/env python3
"""statements.py: every statement of specs/ has a proof by type. Run in the repository's root; reads the crates of crates.txt.

A statement is a name without parameters at a file's margin: an `abbrev pub X : Type 0` whose body says more than a plain type of data, or a
record none of whose fields is plain data. Its proof is a declaration `name : X` at the margin of a file of proofs/ or specs/ that Lib.antt
reaches, X being brought in from the statement's own module. Each statement is printed with its proof; one without ends this with 1."""
import re
import sys

import antt

BUILT_IN = {"List", "ℕ", "ℤ", "Bool", "×", "(", ")"}
MARKS = r"(?:(?:abbrev|unfoldable|pub) )*"


def types_of(module):
    """The types without parameters at a module's margin: name, kind, and the body of an abbreviation or the types of a record's fields."""
    parts = module.declarations()
    for n, part in enumerate(parts):
        if match := re.match(MARKS + r"(\S+) : Type \d+\s*$", part):
            body = next((p for p in parts[n + 1 :] if re.match(re.escape(match[1]) + r"\s*=", p)), "= ?")
            yield match[1], "abbrev", [body.partition("=")[2]]
        elif match := re.match(r"(?:pub )?record (\S+) : Type \d+ where\s", part + "\n"):
            yield match[1], "record", antt.fields(part)
        elif match := re.match(r"(?:pub )?data (\S+)", part):
            yield match[1], "data", []


def is_plain(module, text, plain):
    """Is a type one of data: made of names of such types alone?"""
    for word in re.findall(r"[()]|[^\s()]+", text):
        owner, name = module.resolved(word)
        if word not in BUILT_IN and ".declared." not in owner and (owner, name) not in plain:
            return False
    return bool(text.strip())


def statements(modules):
    """The types without parameters that are no plain types of data."""
    found = [(m, *t) for m in modules for t in types_of(m)]
    plain = {(m.key, name) for m, name, kind, _ in found if kind == "data"}
    known = -1
    while known != len(plain):
        known = len(plain)
        for m, name, kind, bodies in found:
            if kind != "data" and any(is_plain(m, body, plain) for body in bodies):
                plain.add((m.key, name))
    return [(m, name) for m, name, _, _ in found if (m.key, name) not in plain]


def proofs(modules):
    """The declarations at the margin whose type is one name: what that name stands for -> where."""
    found = {}
    for m in modules:
        for part in m.declarations():
            if match := re.match(MARKS + r"(\S+) :\s+([^\s(){}]+)\s*$", part):
                found.setdefault(m.resolved(match[2]), (m, match[1]))
    return found


def main():
    specs = [m for crate in antt.crates() for m in antt.reached(crate, "specs")]
    proved = proofs(specs + [m for crate in antt.crates() for m in antt.reached(crate, "proofs")])
    asked = statements(specs)
    missing = [f"{module.path}: {name}: NO PROOF" for module, name in asked if (module.key, name) not in proved]
    for module, name in asked:
        if proof := proved.get((module.key, name)):
            print(f"{module.path}: {name}: {proof[0].path}: {proof[1]}")
    print("\n".join([*missing, f"{len(asked)} statements, {len(missing)} without a proof"]))
    sys.exit(1 if missing or not asked else 0)


if __name__ == "__main__":
    main()
