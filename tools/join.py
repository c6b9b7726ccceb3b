#!/usr/bin/env python3
"""Joins what came of the pieces of a split run.

    tools/join.py FOLDER > SAVED

FOLDER is one that tools/split.py made and whose pieces tools/run_piece.py ran. What is written is one
saved text with all cubes; the program reads it, brings the cubes into order and writes the listing:

    tools/join.py FOLDER | ./allsat enumerate

A piece that stopped is joined too: what it left open is open in the text, which can be run on or split
again. A piece that was not run, whose result is not whole, is of another piece or of another formula,
or has a cube outside of the piece's prefixes, is refused by its name.
"""
import pathlib
import sys

from check_listing import Wrong, check_form, read_listing
from dimacs import LIMITS
from pieces import CUBES, Unfit, bytes_of, contents_of, digest, main_of, receipt_of, result_of
from pieces import same_formula, saved_in, saved_text, text_in, text_of


class Prefixes:
    """A tree of prefixes, which tells whether a cube lies within one of them."""

    def __init__(self, prefixes):
        self.root = {}
        for prefix in prefixes:
            node = self.root
            for literal in prefix:
                node = node.setdefault(literal, {})
            node[0] = {}  # a prefix ends here

    def hold(self, cube):
        literals, nodes = set(cube), [self.root]
        while nodes:
            node = nodes.pop()
            if 0 in node:
                return True
            nodes += [node[literal] for literal in node.keys() & literals]
        return False


def check_receipt(path, piece, digests, result):
    """That the result is of this piece, and whole."""
    rows = bytes_of(path).decode("utf-8", "replace").splitlines()
    if not rows or rows[0] != f"{digests[text_of(piece)]}  {text_of(piece)}":
        raise Unfit(f"{path}: the receipt of another piece")
    if rows[1:] != [f"{digest(result)}  {result_of(piece)}"]:
        raise Unfit(f"{path}: {result_of(piece)} is not what that run wrote")


def result_in(path, formula, data):
    """The cubes of a result and what it leaves open."""
    if data.startswith(b"c "):
        said = saved_in(path, data)
        if not same_formula(said, formula):
            raise Unfit(f"{path}: of another formula")
        return said.saved
    try:
        cubes = read_listing(data)
        check_form(formula.shown, cubes)
    except Wrong as wrong:
        raise Unfit(f"{path}: {wrong}") from None
    return formula.saved._replace(cubes=cubes, pending=[])


def piece_in(folder, piece, digests, whole):
    """The cubes of a piece and what it leaves open, all of them within its prefixes."""
    formula = text_in(folder, text_of(piece), digests)
    if not same_formula(formula, whole):
        raise Unfit(f"{folder / text_of(piece)}: of another formula than {CUBES}")
    path = folder / result_of(piece)
    data = bytes_of(path)
    check_receipt(folder / receipt_of(piece), piece, digests, data)
    result = result_in(path, formula, data)
    prefixes = Prefixes(formula.saved.pending)
    for cube in result.cubes + result.pending:
        if not prefixes.hold(cube):
            raise Unfit(f"{path}: the cube `{' '.join(map(str, cube))}` is in no prefix of the piece")
    return result


def join(folder):
    """The saved text of all pieces."""
    count, digests = contents_of(folder)
    whole = text_in(folder, CUBES, digests)
    cubes, pending = list(whole.saved.cubes), []
    for piece in range(1, count + 1):
        result = piece_in(folder, piece, digests, whole)
        cubes += result.cubes
        pending += result.pending
    text = saved_text(whole, cubes, pending)
    if len(text) > LIMITS.bytes:
        raise Unfit(f"{folder}: the joined text has {len(text)} bytes, and an input has {LIMITS.bytes} at most")
    return text


def work(words):
    if len(words) != 1:
        return None
    sys.stdout.buffer.write(join(pathlib.Path(words[0])))
    return 0


if __name__ == "__main__":
    main_of(work, __doc__)
