#!/usr/bin/env python3
"""What split.py, run_piece.py and join.py share: the pieces of a saved text, and what is kept of them.

A folder of pieces holds, for the pieces 1 to N,

    piece-K.cnf     the text of the piece: the formula, and its part of the open prefixes
    piece-K.out     what a run on it wrote: its listing, or a saved text where it stopped
    piece-K.done    the receipt of that run: the digests of the text that was read and of what was written

and beside them `cubes.cnf`, a saved text of the cubes that were found before the split, and
`pieces`, which has how many pieces there are, the digest of each of these texts, and in its last
row the digest of the rows before it. A digest is SHA-256.
"""
import hashlib
import os
import pathlib
import sys

from dimacs import Refused, read

CONTENTS = "pieces"
CUBES = "cubes.cnf"


class Unfit(Exception):
    """Why something cannot be split, run or joined, with the name of the file."""


def text_of(piece):
    return f"piece-{piece}.cnf"


def result_of(piece):
    return f"piece-{piece}.out"


def receipt_of(piece):
    return f"piece-{piece}.done"


def digest(data):
    return hashlib.sha256(data).hexdigest()


def bytes_of(path):
    try:
        return pathlib.Path(path).read_bytes()
    except OSError as error:
        raise Unfit(f"{path}: {error.strerror}") from None


def saved_in(path, data):
    """The formula of a saved text, with what is found and what is open."""
    said = read(data)
    if isinstance(said, Refused):
        raise Unfit(f"{path}: {said.note().removeprefix('allsat: ')}")
    if said.saved is None:
        raise Unfit(f"{path}: no saved text; a run with --budget writes one")
    return said


def line(word, literals):
    return " ".join([word, *map(str, literals), "0"]).lstrip() + "\n"


def saved_text(formula, cubes, pending):
    """The text of docs/FORMATS.md for this formula with these cubes and prefixes, as bytes."""
    lines = ["c allsat saved 2\n", f"p cnf {formula.variables} {len(formula.clauses)}\n"]
    lines += [line("", clause) for clause in formula.clauses]
    lines += [line("c p show", formula.shown), line("c p under", formula.under)]
    lines += [line("c p cube", cube) for cube in cubes]
    lines += [line("c p open", prefix) for prefix in pending]
    return "".join(lines + ["c p end\n"]).encode()


def same_formula(a, b):
    return a[:4] == b[:4]


def put(path, data):
    """Puts a file in place, whole or not at all."""
    new = path.with_name(path.name + ".new")
    new.write_bytes(data)
    os.replace(new, path)


def contents_text(texts):
    """What `pieces` holds for these texts by their names, the first of them that of the cubes."""
    rows = [f"{len(texts) - 1} pieces\n", *(f"{digest(text)}  {name}\n" for name, text in texts.items())]
    data = "".join(rows).encode()
    return data + f"{digest(data)}  the rows above\n".encode()


def contents_of(folder):
    """The number of pieces, and the digest of each text by its name. What is not whole is refused."""
    path = pathlib.Path(folder) / CONTENTS
    data = bytes_of(path)
    front, end, last = data[:-1].rpartition(b"\n")
    front += end
    if data[-1:] != b"\n" or last != f"{digest(front)}  the rows above".encode():
        raise Unfit(f"{path}: not as split.py wrote it")
    first, *rows = front.decode().splitlines()
    count = int(first.partition(" ")[0])
    return count, {name: value for value, _, name in (row.partition("  ") for row in rows)}


def text_in(folder, name, digests):
    """The saved text of this name, which has to be the one that was split off."""
    path = pathlib.Path(folder) / name
    data = bytes_of(path)
    if digest(data) != digests[name]:
        raise Unfit(f"{path}: not the text that was split off")
    return saved_in(path, data)


def main_of(work, doc):
    """Runs a script's work over its words; says what is unfit, and ends with status 1 then."""
    try:
        status = work(sys.argv[1:])
    except Unfit as unfit:
        print(f"{pathlib.Path(sys.argv[0]).name}: {unfit}", file=sys.stderr)
        status = 1
    if status is None:
        print(doc.strip(), file=sys.stderr)
        status = 2
    sys.exit(status)
