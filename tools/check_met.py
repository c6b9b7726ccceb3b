#!/usr/bin/env python3
"""The checker's own verdict on a met text, written from docs/FORMATS.md ("The check").

    tools/check_met.py < TEXT

It compares each cube with each other one, so it is for small texts. It ends with status 0 where the
verdict is `s RIGHT`, with 7 where it is another, and with 2 where the text is refused.
"""
import sys

from dimacs import Refused, read


def is_met(clause, literals):
    """Whether the clause has one of the literals, or a literal beside its negation."""
    return any(literal in literals or -literal in clause for literal in clause)


def overlap(cube, other):
    """Whether no literal of the one is negated in the other."""
    return not any(-literal in other for literal in cube)


def verdict(formula):
    """The verdict on the met lines of a formula."""
    for place, met in enumerate(formula.met, 1):
        literals = set(met.cube) | set(met.hidden)
        for number, clause in enumerate(formula.clauses, 1):
            if not is_met(clause, literals):
                return "s NOTMET %d %d" % (place, number)
    for first, met in enumerate(formula.met, 1):
        for second, other in enumerate(formula.met[first:], first + 1):
            if overlap(met.cube, other.cube):
                return "s OVERLAP %d %d" % (first, second)
    return "s RIGHT"


def check(data):
    """The status, the output and the note of a check of this text."""
    said = read(data)
    if not isinstance(said, Refused) and said.met is None:
        said = Refused("NoMetText", 1)
    if isinstance(said, Refused):
        return 2, "", said.note()
    line = verdict(said)
    return (0, line, "") if line == "s RIGHT" else (7, line, "allsat: check said no")


def main():
    status, out, note = check(sys.stdin.buffer.read())
    for text, stream in [(out, sys.stdout), (note, sys.stderr)]:
        if text:
            print(text, file=stream)
    sys.exit(status)


if __name__ == "__main__":
    main()
