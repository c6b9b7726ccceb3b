#!/usr/bin/env python3
"""Runs the program on texts at each limit of the input and one step above it, and on texts that
have no end.

    tools/at_the_limits.py

The texts have up to 2^30 bytes and are made as they are read. It is not part of the gate: it
takes a minute or so, and some hundred megabytes of memory. It ends with status 0, or with status
1 and each text whose answer is wrong.
"""
import subprocess
import sys
from itertools import chain, repeat
from pathlib import Path

TOP = Path(__file__).resolve().parent.parent
PROGRAM = TOP / "crates" / "allsat_cli" / "out" / "build" / "allsat"

PIECE = 1 << 16


def times(count, line):
    """The line so many times, as pieces of a text."""
    at_once = max(1, PIECE // len(line))
    return chain(repeat(line * at_once, count // at_once), [line * (count % at_once)])


def units(count):
    """A unit clause for each variable."""
    for first in range(1, count + 1, 1000):
        last = min(first + 999, count)
        yield b"".join(b"%d 0\n" % variable for variable in range(first, last + 1))


# What the text is, its pieces, and the answer: the note of a refusal, or the listing's lines.
CASES = [
    ("4,000,000 clauses", [[b"p cnf 0 4000000\n"], times(4_000_000, b"0\n")], [b"s ALL"]),
    (
        "a clause more",
        [[b"p cnf 0 4000000\n"], times(4_000_001, b"0\n")],
        "12 TooManyClauses line 4000002",
    ),
    (
        "16,000,000 literals",
        [[b"p cnf 1 4000000\n"], times(4_000_000, b"1 1 1 1 0\n")],
        [b"v 1 0", b"s ALL"],
    ),
    (
        "a literal more",
        [[b"p cnf 1 4000000\n"], times(3_999_999, b"1 1 1 1 0\n"), [b"1 1\n1\n1 1 0\n"]],
        "13 TooManyLiterals line 4000003",
    ),
    (
        "1,000,000 variables",
        [[b"c p show 1000000 0\np cnf 1000000 1000000\n"], units(1_000_000)],
        [b"v 1000000 0", b"s ALL"],
    ),
    ("8,192 shown variables", [[b"p cnf 8192 0\n"]], [b"v 0", b"s ALL"]),
    ("2^30 bytes", [times(2**30, b"\n")], "4 NoHeader line 1073741824"),
    ("a byte more", [times(2**30 + 1, b"\n")], "15 TextTooLong line 1073741825"),
    (
        "2^30 bytes, refused in the last line",
        [times(2**30 - 1, b"\n"), [b"%"]],
        "1 BadStart line 1073741824",
    ),
    ("a byte behind it", [times(2**30 - 1, b"\n"), [b"%\n"]], "15 TextTooLong line 1073741824"),
    ("a line without end", [repeat(b" " * PIECE)], "15 TextTooLong line 1"),
    (
        "a line without end behind a refused one",
        [[b"1 0\n"], repeat(b" " * PIECE)],
        "1 BadStart line 1",
    ),
    (
        "lines without end behind %",
        [[b"p cnf 0 0\n%\n"], repeat(b"1\n" * PIECE)],
        "15 TextTooLong line 536870909",
    ),
]


def answer_to(pieces):
    """Status, standard output and standard error of a run, which gets what it reads of the text."""
    pipes = dict.fromkeys(("stdin", "stdout", "stderr"), subprocess.PIPE)
    process = subprocess.Popen([PROGRAM, "enumerate"], bufsize=0, **pipes)
    try:
        for piece in chain(*pieces):
            while piece:
                piece = piece[process.stdin.write(piece) :]
        process.stdin.close()
    except BrokenPipeError:
        pass
    return process.wait(), process.stdout.read(), process.stderr.read()


def main():
    build = [TOP / "allsat", "enumerate"]
    subprocess.run(build, input=b"p cnf 0 0\n", stdout=subprocess.DEVNULL, check=True)
    wrong = 0
    for name, pieces, answer in CASES:
        if isinstance(answer, str):
            wanted = (2, b"", b"allsat: input refused: %s\n" % answer.encode())
        else:
            wanted = (0, b"".join(line + b"\n" for line in answer), b"")
        found = answer_to(pieces)
        if found != wanted:
            wrong = 1
            print("wrong: %s: status %d, listing %r, notes %r" % (name, *found))
        else:
            print("right: %s" % name, flush=True)
    sys.exit(wrong)


if __name__ == "__main__":
    main()
