#!/usr/bin/env python3
"""Checks a listing of allsat against its formula, by a reader and a search of its own.

    tools/check_listing.py FORMULA < LISTING

It reads the formula by tools/dimacs.py, and then checks of the listing, in this order: its form,
that each cube is made of shown variables that rise, that the cubes rise in the order of cubes,
that no two of them overlap, and that a shown assignment lies in a cube exactly if it has the given
literals and extends to a model. It knows a set of shown assignments by its table, one bit for each of them, so the clauses
and the cubes may hold up to 24 shown variables, and any number of hidden ones. It ends with
status 0 and the number of cubes and of good assignments, or with status 1 and the first thing
that is wrong.
"""
import sys

from dimacs import Refused, read

MOST_IN_USE = 24


class Wrong(Exception):
    """What is wrong with a listing."""


def read_listing(data):
    """The cubes of a listing, whose every byte is as it has to be."""
    lines = data.split(b"\n")
    if len(lines) < 2 or lines[-1] != b"" or lines[-2] != b"s ALL":
        raise Wrong("the listing does not end with the line `s ALL`")
    cubes = []
    for number, line in enumerate(lines[:-2], 1):
        words = line.split(b" ")
        if words[0] != b"v" or len(words) < 2 or words[-1] != b"0":
            raise Wrong("line %d is no cube line" % number)
        try:
            cube = [int(word) for word in words[1:-1]]
        except ValueError:
            raise Wrong("line %d holds what is no number" % number) from None
        if b" ".join([b"v"] + [b"%d" % literal for literal in cube] + [b"0"]) != line or 0 in cube:
            raise Wrong("line %d is not written plainly" % number)
        cubes.append(cube)
    return cubes


def key(cube):
    return [2 * abs(literal) + (literal > 0) for literal in cube]


def check_form(shown, cubes, strictly=True):
    """That the cubes are made of shown variables that rise, and rise themselves; where not
    `strictly`, one may stand there more than once."""
    shown = set(shown)
    for number, cube in enumerate(cubes, 1):
        names = [abs(literal) for literal in cube]
        if not set(names) <= shown:
            raise Wrong("cube %d has a variable that is not shown" % number)
        if any(a >= b for a, b in zip(names, names[1:])):
            raise Wrong("the variables of cube %d do not rise" % number)
    for number, (first, second) in enumerate(zip(cubes, cubes[1:]), 1):
        if key(first) > key(second) or (strictly and first == second):
            raise Wrong("cube %d does not stand before the next one" % number)


class Tables:
    """Sets of assignments of some variables, as numbers: bit p stands for the assignment in which
    the variable at place i is true exactly if bit i of p is set."""

    def __init__(self, variables):
        self.variables = variables
        self.all = (1 << (1 << len(variables))) - 1
        self.of_literal = {}
        for place, variable in enumerate(variables):
            table = ((1 << (1 << place)) - 1) << (1 << place)
            for width in range(place + 1, len(variables)):
                table |= table << (1 << width)
            self.of_literal[variable] = table
            self.of_literal[-variable] = self.all ^ table

    def clause(self, literals):
        """The assignments under which some literal is true."""
        table = 0
        for literal in literals:
            table |= self.of_literal[literal]
        return table

    def cube(self, literals):
        """The assignments under which each literal is true."""
        table = self.all
        for literal in literals:
            table &= self.of_literal[literal]
        return table

    def first(self, table):
        """The words of the first assignment of a set that is not empty."""
        number = (table & -table).bit_length() - 1
        return " ".join(str(v if number >> i & 1 else -v) for i, v in enumerate(self.variables))


def extending(clauses, tables, among):
    """Of the set `among` the assignments that extend to a model of the clauses.

    A clause without hidden variables is a set, and else both sides of a hidden variable are tried.
    """
    undone = []
    for clause in clauses:
        if all(literal in tables.of_literal for literal in clause):
            among &= tables.clause(clause)
        else:
            undone.append(clause)
    if not undone or not among:
        return among
    hidden = next(abs(literal) for literal in undone[0] if literal not in tables.of_literal)
    found = 0
    for true in (-hidden, hidden):
        left = [clause for clause in undone if true not in clause]
        left = [[literal for literal in clause if literal != -true] for clause in left]
        found |= extending(left, tables, among & ~found)
    return found


def check(formula, cubes):
    """The numbers of good assignments and of all, over the shown variables in use; or raises Wrong.

    A variable is in use where a clause or a cube holds it.
    """
    check_form(formula.shown, cubes)
    clauses = formula.clauses + [[literal] for literal in formula.under]
    used = {abs(literal) for literals in clauses + cubes for literal in literals}
    used = sorted(used & set(formula.shown))
    if len(used) > MOST_IN_USE:
        raise Wrong("%d shown variables are in use, too many to try each assignment" % len(used))
    tables = Tables(used)
    listed = 0
    for number, cube in enumerate(cubes, 1):
        table = tables.cube(cube)
        if listed & table:
            words = tables.first(listed & table)
            raise Wrong("cube %d overlaps an earlier one: both hold `%s`" % (number, words))
        listed |= table
    good = extending(clauses, tables, tables.all)
    if good & ~listed:
        raise Wrong("the assignment `%s` is good, and not listed" % tables.first(good & ~listed))
    if listed & ~good:
        raise Wrong("the assignment `%s` is not good, and listed" % tables.first(listed & ~good))
    return bin(good).count("1"), 1 << len(used)


def main():
    if len(sys.argv) != 2:
        print(__doc__)
        sys.exit(2)
    with open(sys.argv[1], "rb") as file:
        formula = read(file.read())
    try:
        if isinstance(formula, Refused):
            raise Wrong("the formula is refused: " + formula.note())
        cubes = read_listing(sys.stdin.buffer.read())
        good, tried = check(formula, cubes)
    except Wrong as wrong:
        print("wrong:", wrong)
        sys.exit(1)
    numbers = (len(cubes), good, tried)
    print("right: %d cubes, %d of %d assignments of the variables in use" % numbers)


if __name__ == "__main__":
    main()
