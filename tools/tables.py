#!/usr/bin/env python3
"""Writes drawings with the Rust's answers as antt tables that hold by computation.

    tables.py --out FOLDER [--title NAME] [--each N] [--theorems N] < ROWS

ROWS is what compare's `drawings` prints (compare/src/drawings.rs describes it). Run it in the repository's root. FOLDER receives Cases.antt (what
a case is and what is shown of it) and NAME1.antt, NAME2.antt .. with one list of N cases a theorem; the lines for Lib.antt are printed.
"""
import argparse
import pathlib
import re
import sys

import unfold

# ---- names of the definition: all that changes with it stands here and in unfold.py

# where Cases.antt finds the types and the entries, and how a table finds Cases.antt
CASE_USES = """\
use Rattle.std.specs.Prelude.{Bool, true, false, List, [], ◌∷◌, ℕ, ◌+◌, ◌*◌, length, replicate, ℤ, pos, neg_ℤ, if◌then◌else◌}
use Rattle.plane.specs.declared.rect.Rect64.{Rect64}
use Rattle.plane.specs.Points.{points_of, coordinates_of}
use Rattle.reference.specs.Entry.{Lent, After, Outcome, refused, drawn, clip_closed, clip_open}
use Rattle.reference.specs.Walk.{walked_outline}
"""
TABLE_USES = """\
use Rattle.std.specs.Prelude.{◌≡◌, refl, List, [], ◌∷◌, map, pos}
"""
CASE_NAMES = ["Case", "C", "U", "L", "R", "minus", "returned", "refusal", "shown"]

CASES = """\
-- A drawing with the Rust's answer: what is given to an entry, and what is shown of the call.
-- Made by tools/tables.py.
%s
abbrev pub minus : ℕ → ℤ
minus n = neg_ℤ (pos n)

abbrev pub R : ℤ → ℤ → ℤ → ℤ → Rect64
R l t r b = record { left = l; top = t; right = r; bottom = b }

-- answer, coordinate list, length list, walked outline
abbrev pub Shown : Type 0
Shown = Outcome × List ℤ × List ℕ × List ℤ

-- W is the number of points that the store holds, A the turn allowance
pub record Case : Type 0 where
  pub closed : Bool
  pub walked : Bool
  pub rect : Rect64
  pub W : ℕ
  pub A : ℕ
  pub coords : List ℤ
  pub expected : Shown

-- a closed path that is walked, so that it has an outline; one that is not; an open one
abbrev pub C : Rect64 → ℕ → ℕ → List ℤ → Shown → Case
C r w a c e = record { closed = true; walked = true; rect = r; W = w; A = a; coords = c; expected = e }

abbrev pub U : Rect64 → ℕ → ℕ → List ℤ → Shown → Case
U r w a c e = record { closed = true; walked = false; rect = r; W = w; A = a; coords = c; expected = e }

abbrev pub L : Rect64 → ℕ → List ℤ → Shown → Case
L r w c e = record { closed = false; walked = false; rect = r; W = w; A = 0; coords = c; expected = e }

-- a result of so many paths, points and turns, and what the two lists hold; then the outline
abbrev pub returned : ℕ → ℕ → ℕ → List ℤ → List ℕ → List ℤ → Shown
returned paths points turns c n o = (drawn paths points turns, c, n, o)

-- a refusal; both lists, of two and one, are as they came
abbrev pub refusal : ℕ → List ℤ → Shown
refusal n o = (refused n, pos 7 ∷ pos 7 ∷ [], 7 ∷ [], o)

-- lists to fill as long as those that are expected, each entry 7
abbrev pub lent : Case → Lent
lent c = record {
  coordinates = replicate (length c.expected.1) (pos 7);
  lengths = replicate (length c.expected.2) 7;
  store = replicate (2 * c.W) (pos 0);
  work = replicate (16 * (c.W + c.A + 1)) 0;
}

abbrev pub outline : Case → List ℤ
outline c = if c.walked then coordinates_of (walked_outline c.rect (points_of c.coords)) else []

abbrev pub shown : Case → Shown
shown c =
    let after : After = if c.closed then clip_closed c.A c.rect c.coords (lent c) else clip_open c.rect c.coords (lent c) in
    (after.answer, after.lists.coordinates, after.lists.lengths, outline c)
"""


def whole(number):
    return f"pos {number}" if number >= 0 else f"minus {-number}"


def listed(items):
    return "(" + " ∷ ".join([*items, "[]"]) + ")" if items else "[]"


def numbers(field):
    return [int(n) for n in field.split(",")] if field else []


def wholes(values):
    return listed([f"({whole(v)})" for v in values])


def expected(answer, paths, outline):
    """The Shown of a row; the lent lists have two and one entries more than the result fills."""
    kind, number = answer.split(",")
    if kind == "X":
        return f"(refusal {number} {wholes(outline)})"
    points = [c for path in paths for c in path]
    lengths = [str(len(path) // 2) for path in paths]
    return (f"(returned {len(paths)} {len(points) // 2} {number} {wholes(points + [7, 7])}"
            f" {listed(lengths + ['7'])} {wholes(outline)})")


def case(row):
    """One row as an element of a list of cases."""
    kind, rect, w, a, path, answer, paths, outline = row.split(";")
    paths = [numbers(p) for p in paths.split("|")] if paths else []
    rect = " ".join(f"({whole(n)})" for n in numbers(rect))
    walked = outline != "-"
    sizes = f"{w} {a}" if kind == "C" else w
    name = "U" if kind == "C" and not walked else kind
    given = f"{name} (R {rect}) {sizes} {wholes(numbers(path))}"
    return f"    {given}\n    {expected(answer, paths, numbers(outline) if walked else [])} ∷\n"


def table_file(groups, uses, names):
    """One file: a list of cases and a theorem for each group of rows. It brings in the names of Cases.antt that it uses."""
    parts = []
    for number, rows in enumerate(groups, 1):
        cases = "".join(case(row) for row in rows)
        parts.append(f"abbrev table{number} : List Case\ntable{number} =\n{cases}    []\n")
        parts.append(f"drawings{number} : map shown table{number} ≡ map (λ c. c.expected) table{number}\n"
                     f"unfolding {' '.join(names)}\ndrawings{number} = refl\n")
    used = set(re.findall(r"\w+", "".join(parts)))
    head = (f"-- Drawings with the Rust's answers: what the entries answer and fill, and the walked outline.\n"
            f"-- Made by tools/tables.py from rows of compare's `drawings`. Assumes nothing.\n{TABLE_USES}"
            f"use Rattle.drawings.specs.Cases.{{{', '.join(n for n in CASE_NAMES if n in used)}}}\n")
    return "\n".join([head + "\n".join(uses) + "\n", *parts])


def split(items, size):
    return [items[i:i + size] for i in range(0, len(items), size)]


def main():
    reader = argparse.ArgumentParser(description="Writes rows of `drawings` as antt tables.")
    reader.add_argument("--out", type=pathlib.Path, required=True, help="the folder that receives the files")
    reader.add_argument("--title", default="Drawings", help="how the files' names begin")
    reader.add_argument("--each", type=int, default=15, help="cases a theorem")
    reader.add_argument("--theorems", type=int, default=4, help="theorems a file")
    given = reader.parse_args()
    rows = [line for line in sys.stdin.read().split("\n") if line and not line.startswith("#")]
    uses, names = unfold.lists()
    (given.out / "Cases.antt").write_text(CASES % CASE_USES)
    print("pub mod Cases")
    for number, groups in enumerate(split(split(rows, given.each), given.theorems), 1):
        name = f"{given.title}{number}"
        (given.out / f"{name}.antt").write_text(table_file(groups, uses, names))
        print(f"pub mod {name}")


if __name__ == "__main__":
    main()
