#!/usr/bin/env python3
"""Lists the solutions of a formula by a loop of blocking clauses over picosat, to compare.

    bench/blocking.py [--limit SECONDS] FORMULA..

Each round asks picosat for a model, and adds the clause that excludes its shown literals; picosat
starts anew each time, from a text of all clauses. Printed are the points found and the seconds,
for at most so many seconds, 60 where nothing else is said.
"""
import argparse
import subprocess
import sys
import time
from pathlib import Path

TOP = Path(__file__).resolve().parent.parent
sys.path.insert(0, str(TOP / "tools"))
import dimacs  # noqa: E402


def model(variables, lines):
    """The literals of a model, or None where there is none."""
    text = "p cnf %d %d\n%s\n" % (variables, len(lines), "\n".join(lines))
    run = subprocess.run(["picosat"], input=text, capture_output=True, text=True, check=False)
    words = " ".join(line[1:] for line in run.stdout.splitlines() if line.startswith("v")).split()
    return [int(word) for word in words if word != "0"] if run.returncode == 10 else None


def points(formula, limit):
    """How many points were found, the seconds, and whether these are all."""
    start, found = time.monotonic(), 0
    clauses = formula.clauses + [[literal] for literal in formula.under]
    lines = [" ".join(map(str, clause + [0])) for clause in clauses]
    shown = set(formula.shown)
    while time.monotonic() - start < limit:
        literals = model(formula.variables, lines)
        if literals is None:
            return found, time.monotonic() - start, True
        found += 1
        lines.append(" ".join(str(-lit) for lit in literals if abs(lit) in shown) + " 0")
    return found, time.monotonic() - start, False


def main():
    parser = argparse.ArgumentParser(description=__doc__.splitlines()[0])
    parser.add_argument("--limit", type=int, default=60)
    parser.add_argument("formulas", nargs="+", type=Path)
    said = parser.parse_args()
    for path in said.formulas:
        found, seconds, whole = points(dimacs.read(path.read_bytes()), said.limit)
        print("%-16s %9d %8.2f %s" % (path.stem, found, seconds, "all" if whole else "cut off"))


if __name__ == "__main__":
    main()
