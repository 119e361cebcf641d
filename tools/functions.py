"""Reads the functions of a crate's src/: which are public, what they promise, and which call which."""
import re
from dataclasses import dataclass
from pathlib import Path

import antt

FUNCTION = re.compile(r'( *)((?:pub(?:\(crate\))? )?)(?:extern "C" )?fn (\w+)')


@dataclass
class Function:
    name: str  # as `rt` prints it, without the crate
    public: bool  # others can name it, or the trait and the type of its impl
    file: str
    first: int  # its lines, from 1, with the attributes above
    last: int
    text: str  # without these

    def contract(self):
        """The text before the body."""
        return re.split(r"\n *\{\n|\) (?:-> [^\n]*)?\{\n", self.text)[0]

    def facts(self):
        """What it ensures of its result and its lists, each as antt: its clauses `ensures { .. }` and `ensures NAME { .. }`."""
        text = self.contract()
        starts = (match.end() - 1 for match in re.finditer(r"\bensures (?:\w+ )?\{", text))
        return [text[at + 1 : at + closing(text[at:])].strip() for at in starts]


def source(path):
    """A file's lines, without comments."""
    return [re.sub(r"//.*", "", line) for line in Path(path).read_text().split("\n")]


def last_line(lines, n, indent):
    """Of the function that begins at line n: its closing brace, or where a trait's has no body, the semicolon behind its clauses."""
    head = next(k for k in range(n - 1, len(lines)) if lines[k].endswith(("{", ";")))
    if lines[head].endswith(";"):
        return head + 1
    return next(k for k in range(n, len(lines)) if lines[k] == indent + "}") + 1


def modules(crate):
    """The modules of a crate's src/: each one's path, its name and whether others can name it; and the name of the top one."""
    root = Path(f"crates/{crate}/src")
    top = "lib" if (root / "lib.rt").exists() else "main"
    head = "\n" + "\n".join(source(root / f"{top}.rt"))
    names = ((path, "::".join(path.relative_to(root).with_suffix("").parts)) for path in sorted(root.rglob("*.rt")))
    return top, [(path, name, name == top or f"\npub mod {name.split('::')[0]};" in head) for path, name in names]


def types(files):
    """The types and traits of these modules: the module of each, and whether others can name it."""
    found = {}
    for path, module, shown in files:
        for public, name in re.findall(r"^(pub(?:\(crate\))? )?(?:struct|enum|trait) (\w+)", "\n".join(source(path)), re.M):
            found[name] = (module, shown and public == "pub ")
    return found


def functions(crate):
    root, found = Path(f"crates/{crate}/src"), []
    top, files = modules(crate)
    homes = types(files)
    for path, module, shown in files:
        lines, owner, home, offered = source(path), "", module, False
        for n, line in enumerate(lines, 1):
            if match := re.match(r"impl(?:<[^>]*>)? (\w+)(?:<[^>]*>)? \{", line):
                owner, home = match[1], homes.get(match[1], (module,))[0]  # a method stands where its type does
            elif match := re.match(r"impl(?:<[^>]*>)? (\w+)(?:<(\w+)>)? for (\w+)(?:<[^>]*>)? \{", line):
                owner = match[3][0].upper() + match[3][1:] + match[1] + (match[2] or "")
                offered = all(homes.get(name, ("", True))[1] for name in filter(None, match.groups()))  # a name from elsewhere is public
            elif line.startswith("impl") and " for " in line:
                raise SystemExit(f"{path}:{n}: an impl in a form that tools/functions.py does not read")
            elif line == "}":
                owner, home, offered = "", module, False
            if not (match := FUNCTION.match(line)):
                if re.search(r"\bfn \w+", line):
                    raise SystemExit(f"{path}:{n}: a function in a form that tools/functions.py does not read")
                continue
            last = last_line(lines, n, match[1])
            parts = [home if home != top else "", owner, match[3]]
            name = "::".join(p for p in parts if p)
            text = "\n".join(lines[n - 1 : last])
            first = next(k for k in range(n, 0, -1) if k == 1 or not lines[k - 2].startswith(f"{match[1]}#["))
            public = offered or shown and match[2] == "pub "
            found.append(Function(name, public, f"src/{path.relative_to(root)}", first, last, text))
    return found


def fitting(name, all_functions):
    """The functions that a name can mean: `f` or `Type::f`."""
    return [f for f in all_functions if ("::" + f.name).endswith("::" + name)]


def called(f, all_functions):
    """The functions that a function calls, itself or through others, by their names: `Type::name(`, `.name(` or `name(`."""
    found, new = [], [f]
    while new:
        for owner, name in set(re.findall(r"(?:\b([A-Z]\w*)::)?\b(\w+)\(", new.pop().text.partition("\n")[2])):
            for g in fitting(f"{owner}::{name}" if owner else name, all_functions):
                if g not in found:
                    found.append(g)
                    new.append(g)
    return found


class Promises:
    """Says of a function whether its promise has an equation: one of its facts ends in `≡` behind its premises, or names a record of
    specs/ with a field that does so, itself or by the record that it names; an abbreviation stands for its body."""

    def __init__(self):
        self.records = {}
        for module in (m for crate in antt.crates() for m in antt.reached(crate, "specs")):
            for part in re.split(r"\n(?= *(?:pub )?record )", module.text):
                if match := re.match(r" *(?:pub )?record (\S+)[^\n]* where\n((?: +\S[^\n]*\n?|\n)*)", part):
                    types = [line.partition(" : ")[2] for line in re.split(r"\n(?= +(?:pub )?\S+ : )", "\n" + match[2])]
                    self.records[(module.key, match[1])] = (module, types)
            for name, body in re.findall(r"\nabbrev pub (\S+) : [^\n]*\n\1(?: [^=\n]*)? = ([^\n]*)", module.text):
                self.records[(module.key, name)] = (module, [body])

    def is_equation(self, module, fact, deep=4):
        conclusion = re.split(r"→", flat(fact))[-1]
        if "≡" in conclusion:
            return True
        head = conclusion.split()[0] if conclusion.split() else ""
        where, types = self.records.get(module.resolved(head), (None, []))
        return deep > 0 and any(self.is_equation(where, t, deep - 1) for t in types)

    def has_equation(self, crate, f):
        path = Path(f"crates/{crate}/{f.file}")
        module = antt.Module(f"{crate}.{f.file}", path, "\n".join(source(path)))
        return any(self.is_equation(module, fact) for fact in f.facts())


def flat(text):
    """A text without what stands in parentheses or braces within it."""
    text = text.strip()
    while text.startswith("(") and closing(text) == len(text) - 1:
        text = text[1:-1].strip()
    out, depth = [], 0
    for sign in text:
        depth += sign in "({"
        if depth == 0:
            out.append(sign)
        depth -= sign in ")}"
    return "".join(out)


def closing(text):
    """Where the parenthesis or brace that a text begins with is closed."""
    depth = 0
    for at, sign in enumerate(text):
        depth += (sign in "({") - (sign in ")}")
        if depth == 0:
            return at
    return -1
