#!/usr/bin/env python3
"""Tests the checker itself: its reader by a table of texts and their answers, its check by wrong
listings.

    tools/test_checker.py

It ends with status 0, or with status 1 and each case that is wrong. The program is not run here;
tools/random_texts.py runs it on the texts of this table too.
"""
import sys

from check_listing import Wrong, check, read_listing
from dimacs import LIMITS, Formula, Refused, read

# A text, line by line, and its answer: the note of a refusal behind `allsat: input refused: `, or
# the listing, line by line.
TABLE = [
    ([], "4 NoHeader line 1"),
    (["c only a comment"], "4 NoHeader line 1"),
    (["c one", "", "c three"], "4 NoHeader line 3"),
    (["1 0"], "1 BadStart line 1"),
    (["\x1f\x8b\x08\x00"], "1 BadStart line 1"),
    (["%"], "1 BadStart line 1"),
    (["p cnf 2"], "2 BadHeader line 1"),
    (["p cnf -1 0"], "2 BadHeader line 1"),
    (["p cnf -0 0"], "2 BadHeader line 1"),
    (["p dnf 1 0"], "2 BadHeader line 1"),
    (["pcnf 1 0"], "2 BadHeader line 1"),
    (["p cnf 1 0 c"], "2 BadHeader line 1"),
    (["p cnf 1 0", "p cnf 1 0"], "3 HeaderTwice line 2"),
    (["p cnf 1 0", "p"], "3 HeaderTwice line 2"),
    (["p cnf 1 1", "1x 0"], "5 BadNumber line 2"),
    (["p cnf 1 1", "-0"], "5 BadNumber line 2"),
    (["p cnf 1 1", "+1 0"], "5 BadNumber line 2"),
    (["p cnf 1 1", "x 1 0"], "5 BadNumber line 2"),
    (["p cnf 1 1", "1 0\x1c"], "5 BadNumber line 2"),
    (["p cnf 1 1", "1 c 0"], "5 BadNumber line 2"),
    (["p cnf 1 1", "2 y 0"], "6 VariableTooLarge line 2"),
    (["p cnf 1 1", "1 -" + "9" * 5000 + " 0"], "6 VariableTooLarge line 2"),
    (["p cnf 1000001 0"], "11 TooManyVariables line 1"),
    (["p cnf " + "9" * 5000 + " 0"], "11 TooManyVariables line 1"),
    (["p cnf 1000001 4000001"], "11 TooManyVariables line 1"),
    (["p cnf 1 4000001"], "12 TooManyClauses line 1"),
    (["p cnf 8193 0"], "14 TooManyShown line 1"),
    (["p cnf 8193 0", "c p show 8193 0"], ["v 0", "s ALL"]),
    (["p cnf 2 1", "c p under -1 0", "1 2 0"], ["v -1 2 0", "s ALL"]),
    (["c p under -2 0", "p cnf 2 1", "c p under 1 -2 0", "1 2 0"], ["v 1 -2 0", "s ALL"]),
    (["p cnf 2 0", "c p show 1 0", "c p under 2 0"], "21 UnderBad line 3"),
    (["p cnf 2 0", "c p under 1 0", "c p under -1 0"], "21 UnderBad line 3"),
    (["p cnf 2 0", "c p under 1 x 0"], "21 UnderBad line 2"),
    (["p cnf 2 0", "c p under 1 0 2"], "21 UnderBad line 2"),
    (["p cnf 2 0", "c p under 1"], "22 UnderUnended line 2"),
    (["c p show 3 0", "p cnf 2 0"], "9 ShowBad line 1"),
    (["p cnf 2 1", "c p show 2 3 0"], "8 ClauseCount line 2 said 1 found 0"),
    (["c p show 1 0", "p cnf 2 0", "c p show 2 3 0", "c p show 4 0"], "9 ShowBad line 3"),
    (["p cnf 2 0", "c p show 1 -2 0"], "9 ShowBad line 2"),
    (["p cnf 2 0", "c p show 1 -0"], "9 ShowBad line 2"),
    (["p cnf 2 0", "c p show 1 0 2"], "9 ShowBad line 2"),
    (["p cnf 2 0", "c p show 1000001"], "9 ShowBad line 2"),
    (["p cnf 2 0", "c p show 1"], "10 ShowUnended line 2"),
    (["p cnf 2 0", "c p show"], "10 ShowUnended line 2"),
    (["p cnf 2 0", "c p show 1", "2 0"], "10 ShowUnended line 2"),
    (["p cnf 1 0", "1 0"], "8 ClauseCount line 2 said 0 found 1"),
    (["p cnf 2 1", "1 3 0"], "6 VariableTooLarge line 2"),
    (["p cnf 2 2", "1 0", "2"], "7 Unfinished line 3"),
    (["p cnf 2 2", "1 0"], "8 ClauseCount line 2 said 2 found 1"),
    (["p cnf 1 1", "1", "%", "0"], "7 Unfinished line 4"),
    (["c allsat saved 3", "x"], "16 SavedBad line 1"),
    (["c allsat saved 1x", "p cnf 0 0", "c p end"], "16 SavedBad line 1"),
    (["c allsat saved", "p cnf 0 0", "c p end"], "16 SavedBad line 1"),
    (["c allsat saved 2 2", "p cnf 0 0", "c p end"], "16 SavedBad line 1"),
    (
        ["c allsat saved 1", "p cnf 2 0", "c p show 1 0", "c p open 2 0", "c p end"],
        "16 SavedBad line 4",
    ),
    (["c allsat saved 1", "p cnf 2 0", "c p open 2 1 0", "c p end"], "16 SavedBad line 3"),
    (["c allsat saved 1", "p cnf 2 0", "c p cube 1", "c p end"], "16 SavedBad line 3"),
    (["c allsat saved 1", "p cnf 2 0", "c p cube 1 0 0", "c p end"], "16 SavedBad line 3"),
    (["c allsat saved 1", "p cnf 2 0", "c p end", "c p open 0"], "16 SavedBad line 4"),
    (["c allsat saved 1", "p cnf 2 0", "c p end 0"], "16 SavedBad line 3"),
    (
        ["c allsat saved 2", "p cnf 2 0", "c p open 3 0", "c p cube 4 0", "c p end"],
        "16 SavedBad line 3",
    ),
    (
        ["c allsat saved 2", "c p under -1 0", "c p cube 1 0", "p cnf 2 0", "c p end"],
        "16 SavedBad line 3",
    ),
    (["c allsat saved 1", "p cnf 2 1", "c p open 0"], "17 SavedUnended line 3"),
    (["c allsat saved 1", "p cnf 2 0", "%", "c p end"], "17 SavedUnended line 4"),
    (["c allsat saved 1", "p cnf 2 1", "1", "c p open 0"], "7 Unfinished line 4"),
    (["\tc\x0ballsat\x0c\x0dmet", "1 0"], "16 SavedBad line 1"),
    (["c allsat met 01", "p cnf 0 0", "c p end"], "16 SavedBad line 1"),
    (["c allsat met 2", "x"], "16 SavedBad line 1"),
    (["c allsat met 1", "p cnf 1 0", "c p met 1 0", "c p end"], "16 SavedBad line 3"),
    (["c allsat met 1", "p cnf 1 0", "c p met 0 0 0", "c p end"], "16 SavedBad line 3"),
    (["c allsat met 1", "p cnf 3 0", "c p met 2 1 0 0", "c p end"], "16 SavedBad line 3"),
    (["c allsat met 1", "p cnf 3 0", "c p met 0 -3 3 0", "c p end"], "16 SavedBad line 3"),
    (
        ["c allsat met 1", "p cnf 2 1", "c p show 1 0", "2 -2 0", "c p met 0 1 0", "c p end"],
        "16 SavedBad line 5",
    ),
    (
        ["c allsat met 1", "c p met 0 4 0", "p cnf 3 0", "c p show 1 0", "c p met 2 0 0", "c p end"],
        "16 SavedBad line 2",
    ),
    (
        ["c allsat met 1", "c p under -1 0", "c p met 1 0 0", "p cnf 2 0", "c p end"],
        "16 SavedBad line 3",
    ),
    (["c allsat met 1", "p cnf 2 0", "c p end", "c p met 0 0"], "16 SavedBad line 4"),
    (["c allsat met 1", "p cnf 2 0", "%", "c p end"], "17 SavedUnended line 4"),
    (
        ["c allsat met 1", "p cnf 2 1", "1 2 0", "c p met 2 0 0", "c p cube x", "c p end"],
        ["v -1 2 0", "v 1 0", "s ALL"],
    ),
    (["c allsat saved 1", "p cnf 1 0", "c p open 0", "c p met x", "c p end"], ["v 0", "s ALL"]),
    (["p cnf 1 1", "1 0", "%", "junk"], ["v 1 0", "s ALL"]),
    (["p cnf 2 0", "c p open 2 1 0"], ["v 0", "s ALL"]),
    (["p cnf 2 1", "1 2 0"], ["v -1 2 0", "v 1 0", "s ALL"]),
    (["p cnf 1 2", "1 0", "-1 0"], ["s ALL"]),
    (["p cnf 0 0"], ["v 0", "s ALL"]),
    (["p cnf 40 1", "1 0"], ["v 1 0", "s ALL"]),
    (["p cnf 2 2", "c p show 1 0", "1 2 0", "-1 -2 0"], ["v -1 0", "v 1 0", "s ALL"]),
    (["p cnf 1 1", "c p show 0", "1 0"], ["v 0", "s ALL"]),
    (["p cnf 1 1", "0"], ["s ALL"]),
    (["p cnf 2 2", "1 -1 0", "2 2 0"], ["v 2 0", "s ALL"]),
    (
        ["c from a benchmark page", "p cnf 3  3 ", " 1", "-2", "0", "2 3 0 -1 0", "%", "0"],
        ["v -1 -2 3 0", "s ALL"],
    ),
    (
        [
            "c t pmc",
            "p cnf 4 2",
            "c p show 1 2 0",
            "1 3 0",
            "c p weight 1 0.4 0",
            "c a comment between clauses",
            "-2 4 0",
            "c p show 2 0",
        ],
        ["v -1 -2 0", "v -1 2 0", "v 1 -2 0", "v 1 2 0", "s ALL"],
    ),
    (["c allsat", "saved", "p cnf 0 0"], "1 BadStart line 2"),
    (["", "c allsat saved", "p cnf 01 000", "c allsat met", "c\x00\xff"], ["v 0", "s ALL"]),
]

# The limits, at a reader whose limits are small: a text, and the name and the line of its refusal,
# or None.
SMALL = LIMITS._replace(bytes=30, clauses=2, literals=3)
AT_THE_LIMITS = [
    (b"p cnf 9 2\n0\n0", None),
    (b"p cnf 9 2\n0\n\n0 0", ("TooManyClauses", 4)),
    (b"p cnf 9 2\n1 2 3 0 0", None),
    (b"p cnf 9 2\n1 2 3\n4 0", ("TooManyLiterals", 3)),
    (b"p cnf 9 2\n1 2 3\n10", ("VariableTooLarge", 3)),
    (b"p cnf 9 2\n1 2 3\n0 0 0", ("TooManyClauses", 3)),
    (b"\n" * 30, ("NoHeader", 30)),
    (b"\n" * 31, ("TextTooLong", 31)),
    (b" " * 31, ("TextTooLong", 1)),
    (b"\n\n1" + b"0" * 28, ("TextTooLong", 3)),
    (b"\n\n1\n" + b"0" * 28, ("BadStart", 3)),
    (b"p cnf 1 0\n%\n" + b"\n" * 19, ("TextTooLong", 21)),
]

# A formula and a wrong listing of it.
WRONG = [
    (b"p cnf 2 1\n1 2 0\n", b"v -1 2 0\nv 1 0\n"),
    (b"p cnf 2 1\n1 2 0\n", b"v -1 2 0\nv 1 0\ns ALL"),
    (b"p cnf 2 1\n1 2 0\n", b"v -1 2 0\nv  1 0\ns ALL\n"),
    (b"p cnf 2 1\n1 2 0\n", b"v -1 2 0\nv 01 0\ns ALL\n"),
    (b"p cnf 2 1\n1 2 0\n", b"v -1 2 0\nv 1 x 0\ns ALL\n"),
    (b"p cnf 2 1\n1 2 0\n", b"v 1 0\nv -1 2 0\ns ALL\n"),
    (b"p cnf 2 1\n1 2 0\n", b"v 2 -1 0\nv 1 0\ns ALL\n"),
    (b"p cnf 2 1\n1 2 0\n", b"v 1 0\ns ALL\n"),
    (b"p cnf 2 1\n1 2 0\n", b"v 1 0\nv 2 0\ns ALL\n"),
    (b"p cnf 2 1\n1 2 0\n", b"v -1 2 0\nv 1 0\nv 1 0\ns ALL\n"),
    (b"p cnf 2 1\n1 2 0\n", b"v -1 0\nv 1 0\ns ALL\n"),
    (b"p cnf 2 1\n1 2 0\n", b"v 0\ns ALL\n"),
    (b"p cnf 3 2\n1 2 0\n1 -2 0\nc p show 1 3 0\n", b"v 1 2 0\ns ALL\n"),
    (b"p cnf 3 2\n1 2 0\n1 -2 0\nc p show 1 3 0\n", b"v 1 3 0\ns ALL\n"),
    (b"p cnf 3 2\n1 2 0\n1 -2 0\nc p show 3 0\n", b"s ALL\n"),
    (b"p cnf 2 2\n1 2 0\n-1 -2 0\nc p show 1 0\n", b"v 1 0\ns ALL\n"),
    (b"p cnf 2 3\n1 2 0\n-1 -2 0\n1 0\nc p show 1 0\n", b"v 0\ns ALL\n"),
]


def text_of(lines):
    """The bytes of a text of the table."""
    return "".join(line + "\n" for line in lines).encode("latin-1")


def is_right(said, data):
    """Whether the listing passes the check."""
    try:
        check(said, read_listing(data))
    except Wrong:
        return False
    return True


def wrong_cases():
    """A line for each case that is wrong."""
    for lines, answer in TABLE:
        said = read(text_of(lines))
        if isinstance(said, Refused):
            if said.note() != "allsat: input refused: %s" % answer:
                yield "%r: refused as %s, wanted %s" % (lines, said.note(), answer)
        elif isinstance(answer, str):
            yield "%r: accepted, wanted %s" % (lines, answer)
        elif not is_right(said, text_of(answer)):
            yield "%r: the listing %r does not pass" % (lines, answer)
    for data, answer in AT_THE_LIMITS:
        said = read(data, SMALL)
        found = (said.name, said.line) if isinstance(said, Refused) else None
        if found != answer:
            yield "%r: %s, wanted %s" % (data, found, answer)
    for data, listing in WRONG:
        said = read(data)
        if not isinstance(said, Formula) or is_right(said, listing):
            yield "%r: the wrong listing %r passes" % (data, listing)


def main():
    found = list(wrong_cases())
    for line in found:
        print("wrong:", line)
    if found:
        sys.exit(1)
    print("right: the checker on %d cases" % (len(TABLE) + len(AT_THE_LIMITS) + len(WRONG)))


if __name__ == "__main__":
    main()
