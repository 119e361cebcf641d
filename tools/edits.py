#!/usr/bin/env python3
"""edits.py [--logs | --try [CRATE..]]: are the must-fail edits what they claim? Run in the repository's root; reads the crates of crates.txt.

Every public function of every library promises something (`ensures`) and has two edits or more, which are printed: those that change its own
text or a constant that it names; those of a private function, said by a line `of: PUBLIC from PRIVATE`: the public one calls it, and is proved from its
promise, which has an equation (functions.py says how that is decided); and those of a line `of: PUBLIC`, whose log must refuse that function itself.
So has the `==` that a public type derives, where a law of proofs/ says what it answers: it has no text, and its edits name that law.
An edit of specs/ names the law that refuses it, `at: FILE LAW`, and so does one of an item's head, which puts an impl written by hand in place of a
derive. Every old text stands once in its file, and the new one has the same control words, but at an item's head, so that the proofs still fit.
Functions that one edit changes do not call each other, so that each is refused for its own sake.
`rt must-fail` and `rt ci` print the first refusal of an edit alone. --try makes each edit in a copy of the repository and keeps what `rt check` says of it, in
target/must-fail; --logs then asks that each of these logs refuses every function and law that its edit is to make wrong, for a fact (refusals.py)."""
import glob
import os
import re
import shutil
import subprocess
import sys
import tempfile
from concurrent.futures import ThreadPoolExecutor
from dataclasses import dataclass, field

import antt
from functions import Promises, called, fitting, functions, modules, types
from refusals import Log, path_of

HEAD = re.compile(r" *(?:#\[derive\(|impl \w+ \{|pub (?:enum|struct) )")
CONTROL = re.compile(r"\b(?:let|if|else|while|loop|for|return|match|break|continue)\b|;|=>|&&|\|\|")
wrong = []


@dataclass
class Part:
    """A paragraph of an edit: places that are changed, and what is said of them."""
    of: list = field(default_factory=list)  # (public, private)
    at: list = field(default_factory=list)  # (file, law)
    places: list = field(default_factory=list)  # (file, line)


@dataclass
class Edit:
    label: str
    parts: list
    texts: dict  # the files that it changes, as it leaves them


def read(path):
    with open(path) as f:
        return f.read()


def replaced(part, texts, crate, path, file, old, new):
    """Notes a place; texts has the files as this edit leaves them."""
    text = texts.setdefault(file, read(f"crates/{crate}/{file}"))
    if text.count(old) != 1:
        wrong.append(f"{path}: an old text stands {text.count(old)} times in {file}")
        return
    head = HEAD.match(old)
    if file.startswith("src/") and head and not part.at:
        wrong.append(f"{path}: a change of an item's head without a line `at: FILE LAW` above it: {old.strip()}")
    if file.startswith("src/") and not head and CONTROL.findall(old) != CONTROL.findall(new):
        wrong.append(f"{path}: a new text has other control words than the old: {old.strip()}")
    part.places.append((file, text[: text.index(old)].count("\n") + 1))
    texts[file] = text.replace(old, new)


def parse(crate, path):
    """An edit, as `rt must-fail` reads it; its paragraphs end at empty lines."""
    edit, file, old = Edit(os.path.basename(path)[:-5], [Part()], {}), "", ""
    for line in read(path).split("\n"):
        key, _, rest = line.partition(": ")
        part = edit.parts[-1]
        if not line:
            edit.parts.append(Part())
        elif key == "of":
            publics, _, private = rest.partition(" from ")
            part.of.extend((public, private) for public in publics.split(", "))
        elif key == "at":
            part.at.append(tuple(rest.split()))
        elif key == "file":
            file = rest
        elif key == "old":
            old = rest
        elif line.startswith("new:"):
            replaced(part, edit.texts, crate, path, file, old, rest)
    return edit


def changed(part, crate, all_functions):
    """The functions whose own text a part changes, or that name a constant which it changes."""
    found = []
    for file, line in part.places:
        here = read(f"crates/{crate}/{file}").split("\n")[line - 1]
        constant = re.match(r" *(?:pub(?:\(crate\))? )?const (\w+)", here)
        for f in all_functions:
            uses = constant and re.search(rf"\b{constant[1]}\b", f.text)
            if f not in found and (uses or f.file == file and f.first <= line <= f.last):
                found.append(f)
    return found


def check_apart(where, own, named, all_functions):
    """None of the functions to be refused for its own sake calls one that the edit changes."""
    for f in own + named:
        for g in called(f, all_functions):
            if g in own and g != f:
                does = "changes" if f in own else "names"
                wrong.append(f"{where}: it {does} {f.name}, which calls {g.name}, changed too (`of: {f.name} from {g.name}`, where that is meant)")


def proved_from(where, part, crate, own, all_functions, promises):
    """The public functions of a part's lines `of: PUBLIC from PRIVATE`, each held to what the line says, and False;
    those of lines `of: PUBLIC`, and True: the log must refuse them themselves."""
    for public, private in part.of:
        tops = [f for f in fitting(public, all_functions) if f.public]
        bases = [f for f in fitting(private, own) if not f.public] if private else []
        if len(tops) == 1 and not private:
            yield tops[0], True
        elif len(tops) != 1 or len(bases) != 1:
            wrong.append(f"{where}: of: {public} from {private}: {len(tops)} public functions, {len(bases)} private ones that the paragraph changes")
        elif bases[0] not in called(tops[0], all_functions):
            wrong.append(f"{where}: {public} does not call {private}")
        elif not promises.has_equation(crate, bases[0]):
            wrong.append(f"{where}: the promise of {private} has no equation")
        else:
            yield tops[0], False


def check_log(where, log, edit, own):
    if not log.there:
        wrong.append(f"{where}: there is no log")
        return
    for f in own:
        if not log.refuses(f):
            wrong.append(f"{where}: its log does not refuse {f.name} for a fact")
    for file, law in (place for part in edit.parts for place in part.at):
        if not log.refuses_law(file, law):
            wrong.append(f"{where}: its log does not refuse {law} of {file} for its own sake")


def check_part(where, part, touched):
    if any(file.startswith("specs/") for file, _ in part.places) and not part.at:
        wrong.append(f"{where}: a change of specs/ without a line `at: FILE LAW`")
    if any(not file.startswith("specs/") for file, _ in part.places) and not (touched or part.at or part.of):
        wrong.append(f"{where}: a change of no function")


def check_edit(crate, edit, all_functions, promises, logs):
    """Holds an edit to what it says; gives the functions that it is an edit of."""
    where, own, named, counted = f"{crate}/{edit.label}", [], [], []
    for part in edit.parts:
        touched = changed(part, crate, all_functions)
        check_part(where, part, touched)
        own += touched
        counted += touched
        for f, alone in proved_from(where, part, crate, touched, all_functions, promises):
            counted.append(f)
            named += [f] if alone else []
    check_apart(where, own, named, all_functions)
    if logs:
        check_log(where, Log(crate, edit.label), edit, own + named)
    return counted


def derived_equalities(crate):
    """The laws of proofs/ on the `==` of a public type, as (file, law): that `==`, as `rt` prints it, and the type's file."""
    found, named = {}, types(modules(crate)[1])
    for module in antt.reached(crate, "proofs"):
        for alias, key in module.aliases.items():
            match = re.fullmatch(rf"{crate}\.specs\.contracts\.(\S+)\.(\w+)PartialEq\.TheImpl", key)
            if not match or not named.get(match[2], ("", False))[1]:
                continue
            home, kind = match[1].replace(".", "::"), match[2]
            for law in re.findall(rf"^(?:pub )?(\S+) : .*\b{alias}\.", module.text, re.M):
                found[(str(module.path.relative_to(f"crates/{crate}")), law)] = (f"{home}::{kind}PartialEq::eq", f"src/{match[1].replace('.', '/')}.rt")
    return found


def equalities_of(edit, equalities):
    """The derived `==` that an edit makes another: its `at:` line names the law, and it changes the type's file."""
    for part in edit.parts:
        for name, file in (equalities[place] for place in part.at if place in equalities):
            if any(file == changed_file for changed_file, _ in part.places):
                yield name


def files(crate):
    return sorted(glob.glob(f"crates/{crate}/must-fail/*.edit"))


def checked(folder):
    """What `rt check` says in a crate's folder, and whether it proves the crate."""
    done = subprocess.run(["rt", "check"], cwd=folder, stdout=subprocess.PIPE, stderr=subprocess.STDOUT, text=True)
    return done.stdout, done.returncode == 0


def try_edits(crate, room):
    """Makes each edit of a crate in a copy of the repository, and keeps what is said of it."""
    folder = f"{room}/crates/{crate}"
    said, proved = checked(folder)
    if not proved:
        sys.exit(f"{said}{crate}: it is not proved as it stands")
    for path in files(crate):
        edit = parse(crate, path)
        for file, text in edit.texts.items():
            with open(f"{folder}/{file}", "w") as f:
                f.write(text)
        log = path_of(crate, edit.label)
        log.parent.mkdir(parents=True, exist_ok=True)
        log.write_text(checked(folder)[0])
        for file in edit.texts:
            shutil.copy(f"crates/{crate}/{file}", f"{folder}/{file}")


def try_crate(crate):
    """In a copy of the repository of its own, since the checks of one checkout wait for one another."""
    with tempfile.TemporaryDirectory() as room:
        for file in filter(os.path.exists, ("crates.txt", "HANDLES")):
            shutil.copy(file, room)
        shutil.copytree("crates", f"{room}/crates", ignore=shutil.ignore_patterns("out", "must-fail"))
        try_edits(crate, room)


def try_all(chosen):
    """As many crates at a time as there are processors, the largest first."""
    crates = [c for c in antt.crates() if files(c) and c in (chosen or antt.crates())]
    with ThreadPoolExecutor(os.cpu_count()) as pool:
        for _ in pool.map(try_crate, sorted(crates, key=size, reverse=True)):
            pass


def size(crate):
    return sum(os.path.getsize(p) for p in glob.glob(f"crates/{crate}/proofs/**/*.antt", recursive=True)) * len(files(crate))


def check(crate, promises, logs):
    all_functions, equalities = functions(crate), derived_equalities(crate)
    public = [f for f in all_functions if f.public]
    derived = [name for name, _ in equalities.values()]
    edits_of = {name: [] for name in [f.name for f in all_functions] + derived}
    for path in files(crate):
        edit = parse(crate, path)
        for name in {f.name for f in check_edit(crate, edit, all_functions, promises, logs)} | set(equalities_of(edit, equalities)):
            edits_of[name].append(edit.label)
    for name in dict.fromkeys([f.name for f in public] + derived):
        print(f"{crate}::{name}: {', '.join(edits_of[name])}")
        if len(edits_of[name]) < 2:
            wrong.append(f"{crate}::{name}: fewer than two edits")
    wrong.extend(f"{crate}::{f.name}: it promises nothing (no `ensures`)" for f in public if not f.facts())


def main():
    mode, chosen = "".join(sys.argv[1:2]), sys.argv[2:]
    if mode not in ("", "--logs", "--try") or chosen and (mode != "--try" or set(chosen) - set(antt.crates())):
        sys.exit("usage: edits.py [--logs | --try [CRATE..]]")
    if mode == "--try":
        try_all(chosen)
        return
    promises = Promises()
    for crate in antt.crates():
        check(crate, promises, mode == "--logs")
    wrong.extend(f"{folder}: `rt ci` tries the edits of must-fail alone" for folder in glob.glob("crates/*/must-fail?*"))
    for line in dict.fromkeys(wrong):
        print(line, file=sys.stderr)
    sys.exit(1 if wrong else 0)


if __name__ == "__main__":
    main()
