#!/usr/bin/env python3
"""Runs the program on every front of some texts, which a transfer that broke off would leave, and
compares each run with the checker's own reader and check.

    tools/fronts.py

The texts are what the program saves of two runs, a saved text of version 1 that was written by hand, met
texts and plain ones. Of each front of each text the status, the note and the output are compared, of `enumerate` and of
`check`. Of a text that ends with its end line the fronts that are texts are the whole one and that without
its last byte alone. Some fronts stand in tables with the answers that they have to have, as worked
out by hand. It ends with status 0, or with status 1 and each front on which the program does otherwise.
"""
import subprocess
import sys

from dimacs import Refused, read
from random_texts import TOP, check_difference, difference, run_program

# What each table is of: a formula that is saved after one leaf, and a met text.
FORMULA = b"p cnf 2 2\n1 2 0\n-1 -2 0\n"
UNDER = b"p cnf 3 4\n1 2 3 0\n1 -2 -3 0\n-1 2 -3 0\n-1 -2 3 0\nc p show 1 3 0\nc p under -1 0\n"
MET = b"""c allsat met 1
p cnf 2 2
c p show 1 0
1 2 0
-1 -2 0
c p met -1 0 2 0
c p met 1 0 -2 0
c p end
"""
MET_UNDER = b"""c allsat met 1
c p under -2 0
c p met -2 3 0 -1 0
p cnf 3 2
c p show 2 3 0
1 3 0 -1 2 0
c p end
"""
BY_HAND = b"""c  allsat\tsaved 1
c p cube 1 -2 0
c p open -1 0
p cnf 3 1
1 2
3 0
c p open 1 2 0
c p end
"""
PLAIN = [
    b"c t pmc\np cnf 4 2\nc p show 1 2 0\n1 3 0\nc p weight 1 0.4 0\n-2 4 0\nc p show 2 0\n%\n0\n",
    b"p cnf 12 3\n-12 10 0\n3 -4\n0 11 0\nc p under 11 0\n",
]

# So many whole lines, a piece of the next one, and the note behind `allsat: input refused: `.
SAVED_TABLE = [
    (0, b"", "4 NoHeader line 1"),
    (0, b"c allsat save", "4 NoHeader line 1"),
    (0, b"c allsat saved", "16 SavedBad line 1"),
    (0, b"c allsat saved ", "16 SavedBad line 1"),
    (0, b"c allsat saved 2", "4 NoHeader line 1"),
    (1, b"", "4 NoHeader line 1"),
    (1, b"p", "2 BadHeader line 2"),
    (1, b"p cnf 2", "2 BadHeader line 2"),
    (1, b"p cnf 2 2", "17 SavedUnended line 2"),
    (2, b"1", "7 Unfinished line 3"),
    (2, b"1 2 0", "17 SavedUnended line 3"),
    (3, b"", "17 SavedUnended line 3"),
    (3, b"-", "5 BadNumber line 4"),
    (3, b"-1 -", "5 BadNumber line 4"),
    (3, b"-1 -2", "7 Unfinished line 4"),
    (4, b"c p sho", "17 SavedUnended line 5"),
    (4, b"c p show", "10 ShowUnended line 5"),
    (4, b"c p show 1 2", "10 ShowUnended line 5"),
    (5, b"c p under", "22 UnderUnended line 6"),
    (6, b"c p cub", "17 SavedUnended line 7"),
    (6, b"c p cube -", "16 SavedBad line 7"),
    (6, b"c p cube -1 2", "16 SavedBad line 7"),
    (7, b"c p open", "16 SavedBad line 8"),
    (7, b"c p open 1", "16 SavedBad line 8"),
    (8, b"", "17 SavedUnended line 8"),
    (8, b"c p en", "17 SavedUnended line 9"),
]
MET_TABLE = [
    (0, b"c allsat me", "4 NoHeader line 1"),
    (0, b"c allsat met", "16 SavedBad line 1"),
    (0, b"c allsat met 1", "4 NoHeader line 1"),
    (2, b"", "17 SavedUnended line 2"),
    (2, b"c p show 1", "10 ShowUnended line 3"),
    (4, b"-1 -2", "7 Unfinished line 5"),
    (5, b"c p me", "17 SavedUnended line 6"),
    (5, b"c p met", "16 SavedBad line 6"),
    (5, b"c p met -1 0", "16 SavedBad line 6"),
    (5, b"c p met -1 0 2", "16 SavedBad line 6"),
    (7, b"c p en", "17 SavedUnended line 8"),
]


def saved_after(text, leaves):
    """What the program saves of the text after so many leaves."""
    ran = run_program(text, "--budget", str(leaves))
    if ran.returncode != 3:
        raise SystemExit("wrong: %r is not saved after %d leaves" % (text, leaves))
    return ran.stdout


def wrong_with(front):
    """What the program does otherwise on this text than the checker, or None."""
    said = read(front)
    runs = [difference(said, run_program(front))]
    runs.append(check_difference(front, run_program(front, command="check")))
    return next((why for why in runs if why is not None), None)


def wrong_fronts(text):
    """A line for each front of the text, itself among them, that is answered wrong."""
    for length in range(len(text) + 1):
        why = wrong_with(text[:length])
        if why is not None:
            yield "%r: %s" % (text[:length], why)


def wrong_ends(text):
    """A line for each proper front of a text with an end line that is read or refused wrongly: just
    the one without its last byte is a text."""
    for length in range(len(text)):
        is_text = not isinstance(read(text[:length]), Refused)
        if is_text != (length == len(text) - 1):
            yield "%r: it is %s text" % (text[:length], "a" if is_text else "no")


def wrong_rows(text, table):
    """A line for each row of a table that the program answers otherwise."""
    lines = text.splitlines(keepends=True)
    for count, piece, note in table:
        front = b"".join(lines[:count]) + piece
        assert text.startswith(front)
        ran = run_program(front)
        wanted = b"allsat: input refused: %s\n" % note.encode()
        if (ran.returncode, ran.stdout, ran.stderr) != (2, b"", wanted):
            yield "%r: %r, wanted %s" % (front, ran.stderr, note)


def main():
    build = [TOP / "allsat", "enumerate"]
    subprocess.run(build, input=b"p cnf 0 0\n", stdout=subprocess.DEVNULL, check=True)
    saved = saved_after(FORMULA, 1)
    ended = [saved, saved_after(UNDER, 1), BY_HAND, MET, MET_UNDER]
    wrong = [*wrong_rows(saved, SAVED_TABLE), *wrong_rows(MET, MET_TABLE)]
    for text in ended:
        wrong += wrong_ends(text)
    for text in ended + PLAIN:
        wrong += wrong_fronts(text)
    for line in wrong:
        print("wrong: " + line)
    if not wrong:
        print("right: %d fronts of %d texts" % (sum(len(text) + 1 for text in ended + PLAIN), len(ended + PLAIN)))
    return 1 if wrong else 0


if __name__ == "__main__":
    sys.exit(main())
