#!/usr/bin/env python3
"""Brings the repository's own names in clauses, definitions and proofs to snake case.

usage: tools/spelling.py [--check] FOLDER     FOLDER: a checkout

A word of antt with a dash between letters, or with a capital behind a small letter, becomes snake case: `cross-product-sign` is `cross_product_sign`, `eqZ`
is `eq_z`, `add′` is `add'`. What turns: the code of crates/*/specs and crates/*/proofs, the clauses, ghost items and `ghost use` lines of crates/*/src, the code spans
of comments and of the documents. What stays: names that come from a library (each is imported from a module that is not the repository's), words behind a path of a library,
names that begin with a capital and a small letter (types and modules), strings, numbers. It prints each pair of names of one file that fall together.
With --check it writes nothing.
"""

import collections
import os
import re
import sys

OWN = ("integers", "rounding", "plane", "reference", "theorems", "entry", "drawings", "text", "rectclip", "harness", "handheld", "firmware", "program", "clip", "replay", "example")
WORD = re.compile(r'[^\s(){}.;,@"«»`]+')
QUIET = re.compile(r'"(?:[^"\\\n]|\\.)*"|(?<![^\s(){}.;,@"«»])--[^\n]*|\{-.*?-\}', re.S)
QUIET_RT = re.compile(r'b?"(?:[^"\\\n]|\\.)*"|//[^\n]*|b?\'(?:\\.|[^\'\\\n])\'')
SPAN = re.compile(r"`[^`\n]+`")
USE = re.compile(r"\buse\s+([A-Za-z_][\w.]*)\.\{([^}]*)\}", re.S)
PATH = re.compile(r'(?<![^\s(){};,@"«»`])(?:[A-Za-z_]\w*\.)+')
DASH = re.compile(r"(?<=[\w'′])-(?=\w)")
# the goals' names of an older Rattle, which only the proofs of functions have
MADE = re.compile(r"^(Need|After|At|In|Then|Else)-")


def own_path(path):
    return path.startswith("Rattle.") and path.split(".")[1] in OWN


def respelled(word):
    new = DASH.sub(lambda m: m[0][:-1] + "_", word)
    if new == word and re.match(r"^[a-z][^_]*$", word):
        new = re.sub(r"(?<=[a-z0-9])[A-Z]", lambda m: "_" + m[0].lower(), word)
    return new.replace("′", "'")


def files(root):
    for folder, dirs, names in os.walk(os.path.join(root, "crates")):
        dirs[:] = sorted(d for d in dirs if d not in ("out", ".git"))
        for f in sorted(names):
            if f.endswith((".antt", ".rt")):
                yield os.path.join(folder, f)


def pages(root):
    yield os.path.join(root, "README.md")
    for f in sorted(os.listdir(os.path.join(root, "docs"))):
        if f.endswith(".md"):
            yield os.path.join(root, "docs", f)
    yield os.path.join(root, "compare", "README.md")


def imported(text):
    for m in USE.finditer(text):
        if not own_path(m[1] + "."):
            for item in m[2].split(","):
                words = item.split()
                if words:
                    yield words[-1].strip("«»")
                    yield words[0].strip("«»")


def library_names(root):
    names = set()
    for p in files(root):
        with open(p, encoding="utf-8") as f:
            names.update(imported(f.read()))
    return names


class Speller:
    def __init__(self, root):
        self.stay = library_names(root)
        self.turned = collections.Counter()

    def word(self, w):
        if w in self.stay or MADE.match(w) or re.fullmatch(r"[\d-]+", w):
            return w
        new = respelled(w)
        if new != w:
            self.turned[w] += 1
        return new

    def code(self, text):
        out, at = [], 0
        for m in WORD.finditer(text):
            out.append(text[at : m.start()])
            at = m.end()
            before = text[max(0, m.start() - 200) : m.start()]
            head = re.search(r'(?:[A-Za-z_]\w*\.)+$', before)
            library = head and (head[0].split(".")[0] in ("lib", "Prim", "mathlib", "native", "borrow", "mir", "base", "denote", "types", "contract", "abs", "prog", "ghost", "std", "core") or head[0].startswith("Rattle.") and not own_path(head[0]))
            out.append(m[0] if library or head and head[0] == "tie." else self.word(m[0]))
        out.append(text[at:])
        return "".join(out)

    def spans(self, text):
        return SPAN.sub(lambda m: self.code(m[0]), text)

    def file(self, text, quiet):
        out, at = [], 0
        for m in quiet.finditer(text):
            out.append(self.code(text[at : m.start()]))
            out.append(self.spans(m[0]) if m[0][:2] in ("--", "//", "{-") else m[0])
            at = m.end()
        out.append(self.code(text[at:]))
        return "".join(out)


def words(text, quiet):
    return set(WORD.findall(quiet.sub(" ", text)))


def main(argv):
    check = "--check" in argv
    (root,) = [a for a in argv if a != "--check"]
    speller = Speller(root)
    together = collections.defaultdict(list)
    for p in files(root):
        quiet = QUIET if p.endswith(".antt") else QUIET_RT
        with open(p, encoding="utf-8") as f:
            text = f.read()
        new = speller.file(text, quiet)
        seen = words(text, quiet)
        for w in seen:
            v = speller.word(w)
            if v != w and v in seen:
                together[(w, v)].append(os.path.relpath(p, root))
        if new != text and not check:
            with open(p, "w", encoding="utf-8") as f:
                f.write(new)
    known = set()
    for p in files(root):
        with open(p, encoding="utf-8") as f:
            known.update(speller.word(w) for w in words(f.read(), QUIET if p.endswith(".antt") else QUIET_RT))
    for p in pages(root):
        with open(p, encoding="utf-8") as f:
            text = f.read()
        new = SPAN.sub(lambda m: WORD.sub(lambda n: respelled(n[0]) if n[0] not in known and respelled(n[0]) in known else n[0], m[0]), text)
        if new != text and not check:
            with open(p, "w", encoding="utf-8") as f:
                f.write(new)
    for (w, v), where in sorted(together.items()):
        print(f"together: {w} {v}: {' '.join(where[:4])}{f' and {len(where) - 4} more' if len(where) > 4 else ''}")
    print(f"{len(speller.turned)} names respelled in {sum(speller.turned.values())} places")


if __name__ == "__main__":
    main(sys.argv[1:])
