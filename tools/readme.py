#!/usr/bin/env python3
"""readme.py: runs what README.md shows. A block behind `<!-- run -->` is run by bash in the repository's folder, one behind `<!-- prints -->` is what the
run before it prints, and one behind `<!-- file: NAME -->` is that file. Says which blocks it tried; ends with 1 where one differs or fails, or
where there are not as many of each kind as EXPECTED says."""
import re
import subprocess
import sys
from pathlib import Path

ROOT = Path(__file__).resolve().parent.parent
EXPECTED = {"run": 3, "prints": 1, "file": 1}
MARK = re.compile(r"<!-- (run|prints|file: (\S+)) -->$")


def block(lines, at):
    """The fenced or indented block at or behind a line, without its fence or indent."""
    while not lines[at].strip():
        at += 1
    if lines[at].startswith("```"):
        end = lines.index("```", at + 1)
        return lines[at + 1:end]
    end = at
    while end < len(lines) and lines[end].startswith("    "):
        end += 1
    return [line[4:] for line in lines[at:end]]


def run(commands):
    done = subprocess.run(["bash", "-euo", "pipefail", "-c", "\n".join(commands)], cwd=ROOT, capture_output=True, text=True)
    if done.returncode != 0:
        print(done.stdout + done.stderr)
    return done


def main():
    lines = (ROOT / "README.md").read_text().split("\n")
    failed, printed, tried = 0, "", dict.fromkeys(EXPECTED, 0)
    for at, line in enumerate(lines):
        mark = MARK.match(line)
        if not mark:
            continue
        shown = block(lines, at + 1)
        if mark[1] == "run":
            done = run(shown)
            good, printed = done.returncode == 0, done.stdout
        elif mark[1] == "prints":
            good = printed == "\n".join(shown) + "\n"
        else:
            good = (ROOT / mark[2]).read_text() == "\n".join(shown) + "\n"
        tried[mark[1].split(":")[0]] += 1
        failed += not good
        print(f"README.md:{at + 1}: {mark[1]}: {'as shown' if good else 'NOT as shown'}")
    print(f"{sum(tried.values())} blocks of README.md tried, {failed} not as shown")
    if tried != EXPECTED:
        print(f"README.md has {tried} blocks, and {EXPECTED} are expected: a mark is missing, or EXPECTED in tools/readme.py is to be changed")
    return failed > 0 or tried != EXPECTED


if __name__ == "__main__":
    sys.exit(main())
