#!/usr/bin/env python3
"""Checks a listing that is too large for tools/check_listing.py, with clasp as the counter.

    ./allsat enumerate < FORMULA | tools/check_by_count.py FORMULA

It checks the form and the order of the cubes; that no two overlap; that each cube, with what unit
propagation derives from it, has a true literal in each clause, so that whatever lies in it is
good; and that the cubes together hold as many points as clasp lists by a projected enumeration of
the same formula. From these it follows that nothing is left out. A cube that needs more than unit
propagation to be seen good is answered as not shown.
"""
import re
import subprocess
import sys
import tempfile
from pathlib import Path

from check_listing import Wrong, check_form, read_listing
from dimacs import Refused, read

sys.path.insert(0, str(Path(__file__).resolve().parent.parent / "bench"))
from search import write_aspif  # noqa: E402


def check_apart(cubes):
    """That no two of the cubes overlap: split by the first variable that any of them has here."""
    work = [(cubes, 0)]
    while work:
        some, above = work.pop()
        if len(some) < 2:
            continue
        named = [abs(lit) for cube in some for lit in cube if abs(lit) > above]
        if not named:
            raise Wrong("two cubes overlap: %r and %r" % (some[0], some[1]))
        variable = min(named)
        for lit in (-variable, variable):
            work.append(([cube for cube in some if -lit not in cube], variable))


def is_good(cube, clauses, of_literal):
    """Whether the cube and what unit propagation derives from it meet each clause."""
    true, queue = set(cube), list(cube)
    while queue:
        for number in of_literal.get(-queue.pop(), ()):
            clause = clauses[number]
            if not any(lit in true for lit in clause):
                left = [lit for lit in clause if -lit not in true]
                if len(left) == 1:
                    true.add(left[0])
                    queue.append(left[0])
    return all(any(lit in true or -lit in clause for lit in clause) for clause in clauses)


def points_by_clasp(formula):
    given = [[literal] for literal in formula.under]
    formula = formula._replace(clauses=formula.clauses + given)
    with tempfile.TemporaryDirectory() as folder:
        program = Path(folder) / "program.aspif"
        write_aspif(program, formula)
        words = ["clasp", "0", "-q", "--project=project", str(program)]
        run = subprocess.run(words, capture_output=True, text=True, check=False)
    return int(re.search(r"Models +: (\d+)", run.stdout)[1])


def check(formula, cubes):
    check_form(formula.shown, cubes)
    check_apart([frozenset(cube) for cube in cubes])
    clauses = [sorted(set(clause)) for clause in formula.clauses]
    of_literal = {}
    for number, clause in enumerate(clauses):
        for lit in clause:
            of_literal.setdefault(lit, []).append(number)
    for number, cube in enumerate(cubes, 1):
        if not set(formula.under) <= set(cube):
            raise Wrong("cube %d lacks a given literal" % number)
        if not is_good(cube, clauses, of_literal):
            raise Wrong("cube %d is not shown to be good" % number)
    held = sum(1 << (len(formula.shown) - len(cube)) for cube in cubes)
    if held != points_by_clasp(formula):
        raise Wrong("the cubes hold %d points, and clasp lists another number" % held)
    return held


def main():
    if len(sys.argv) != 2:
        print(__doc__)
        sys.exit(2)
    formula = read(Path(sys.argv[1]).read_bytes())
    try:
        if isinstance(formula, Refused):
            raise Wrong("the formula is refused: " + formula.note())
        cubes = read_listing(sys.stdin.buffer.read())
        held = check(formula, cubes)
    except Wrong as wrong:
        print("wrong:", wrong)
        sys.exit(1)
    print("right: %d cubes, which hold %d points" % (len(cubes), held))


if __name__ == "__main__":
    main()
