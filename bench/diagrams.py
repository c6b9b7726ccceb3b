#!/usr/bin/env python3
"""Builds the decision diagram of a formula's solutions by the BuDDy library, to compare.

    bench/diagrams.py [--limit SECONDS] [--sift] [--large] [FORMULA..]

The variables are ordered by their numbers, with --sift reordered by BuDDy's sifting as the diagram
grows. The clauses are joined two by two, then the products of two, and so on, those that stand
beside each other when they are sorted by their lowest variable first; hidden variables are
quantified at the end. Printed are the nodes of the diagram, its paths to true, which are
disjoint cubes, the points that they hold, and the seconds, reading not included. Each formula has
a process of its own, for at most so many seconds, 60 where nothing else is said; where none is named,
it is those of bench/formulas and the families of bench/search.py, with --large the larger formulas that
it has for several workers. A dash stands for what did not end.
It needs Debian's libbdd-dev.
"""
import argparse
import ctypes
import subprocess
import sys
import tempfile
import time
from pathlib import Path

TOP = Path(__file__).resolve().parent.parent
sys.path.insert(0, str(TOP / "tools"))
import dimacs  # noqa: E402
import search  # noqa: E402

NODES, CACHE = 4_000_000, 1_000_000  # to begin with; both grow
MOST_GROWTH = 16_000_000
SIFT = 4  # BuDDy's BDD_REORDER_SIFT
FORM = "%-16s %9s %12s %14s %8s"


def library():
    """BuDDy, with the results that are no int."""
    buddy = ctypes.CDLL("libbdd.so.0")
    buddy.bdd_pathcount.restype = ctypes.c_double
    buddy.bdd_satcountset.restype = ctypes.c_double
    return buddy


def kept(buddy, diagram):
    if diagram < 0:
        sys.exit("BuDDy: error %d" % diagram)
    return buddy.bdd_addref(diagram)


def variable_set(buddy, variables):
    numbers = (ctypes.c_int * len(variables))(*variables)
    return kept(buddy, buddy.bdd_makeset(numbers, len(variables)))


def of_clause(buddy, clause):
    out = kept(buddy, 0)
    for literal in clause:
        one = buddy.bdd_ithvar(literal) if literal > 0 else buddy.bdd_nithvar(-literal)
        wider = kept(buddy, buddy.bdd_or(out, one))
        buddy.bdd_delref(out)
        out = wider
    return out


def joined(buddy, parts):
    """The conjunction of the diagrams, two neighbours at a time, until one is left."""
    while len(parts) > 1:
        pairs = [parts[at:at + 2] for at in range(0, len(parts), 2)]
        parts = []
        for pair in pairs:
            both = kept(buddy, buddy.bdd_and(*pair)) if len(pair) == 2 else pair[0]
            if len(pair) == 2:
                buddy.bdd_delref(pair[0])
                buddy.bdd_delref(pair[1])
            parts.append(both)
    return parts[0] if parts else kept(buddy, 1)


def measure(path, sift):
    """Prints nodes, paths, points and seconds of one formula."""
    formula, buddy = dimacs.read(path.read_bytes()), library()
    start = time.monotonic()
    buddy.bdd_init(NODES, CACHE)
    buddy.bdd_gbc_hook(None)
    buddy.bdd_setmaxincrease(MOST_GROWTH)
    buddy.bdd_setcacheratio(8)
    buddy.bdd_setvarnum(formula.variables + 1)
    if sift:
        buddy.bdd_varblockall()
        buddy.bdd_autoreorder(SIFT)
    clauses = formula.clauses + [[literal] for literal in formula.under]
    clauses.sort(key=lambda clause: min(map(abs, clause), default=0))
    whole = joined(buddy, [of_clause(buddy, clause) for clause in clauses])
    hidden = sorted(set(range(1, formula.variables + 1)) - set(formula.shown))
    if hidden:
        whole = kept(buddy, buddy.bdd_exist(whole, variable_set(buddy, hidden)))
    points = buddy.bdd_satcountset(whole, variable_set(buddy, formula.shown))
    seconds = time.monotonic() - start
    print(buddy.bdd_nodecount(whole), "%.0f" % buddy.bdd_pathcount(whole), "%.0f" % points, "%.2f" % seconds)


def row(path, said):
    """One formula, in a process of its own."""
    words = [sys.executable, __file__, "--one", str(path)] + ["--sift"] * said.sift
    try:
        run = subprocess.run(words, capture_output=True, text=True, timeout=said.limit, check=False)
        cells = run.stdout.split() if run.returncode == 0 else []
        note = run.stderr.strip()
    except subprocess.TimeoutExpired:
        cells, note = [], ""
    print(FORM % (path.stem, *(cells or "----")), note, flush=True)


def main():
    style = argparse.RawDescriptionHelpFormatter
    parser = argparse.ArgumentParser(description=__doc__, formatter_class=style)
    parser.add_argument("--limit", type=int, default=60)
    parser.add_argument("--sift", action="store_true")
    parser.add_argument("--large", dest="workers", action="store_true")
    parser.add_argument("--one", action="store_true", help=argparse.SUPPRESS)
    parser.add_argument("formulas", nargs="*", type=Path)
    said = parser.parse_args()
    if said.one:
        measure(said.formulas[0], said.sift)
        return
    with tempfile.TemporaryDirectory() as folder:
        paths = search.formulas_of(said, Path(folder))
        print(FORM % ("formula", "nodes", "paths", "points", "seconds"))
        for path in paths:
            row(path, said)


if __name__ == "__main__":
    main()
