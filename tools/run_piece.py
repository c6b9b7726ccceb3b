#!/usr/bin/env python3
"""Runs the program on one piece of a split run.

    tools/run_piece.py PIECE [OPTION..]

PIECE is a text of tools/split.py, as in pieces/piece-7.cnf; the options are those of `allsat
enumerate`. What the run writes is put beside it, as piece-7.out, and with it the receipt piece-7.done,
so that tools/join.py can tell that it is whole and that it is of this piece. Both are put in place
when the run has ended: one that is cut off leaves nothing. The status is the program's; a piece that
stopped at a budget (3) or for want of memory (4) leaves a saved text, which can be run on or split
again.
"""
import pathlib
import re
import subprocess
import sys

from pieces import Unfit, bytes_of, digest, main_of, put, receipt_of, result_of

PROGRAM = pathlib.Path(__file__).resolve().parent.parent / "allsat"
# The statuses that leave a text to be joined: finished, budget spent, out of memory.
LEAVE_A_TEXT = (0, 3, 4)


def work(words):
    if not words:
        return None
    path = pathlib.Path(words[0])
    name = re.fullmatch(r"piece-([0-9]+)\.cnf", path.name)
    if not name:
        raise Unfit(f"{path}: no piece-K.cnf")
    text = bytes_of(path)
    run = subprocess.run([PROGRAM, "enumerate", *words[1:]], input=text, stdout=subprocess.PIPE, check=False)
    if run.returncode in LEAVE_A_TEXT and run.stdout:
        put(path.with_name(result_of(name[1])), run.stdout)
        receipt = f"{digest(text)}  {path.name}\n{digest(run.stdout)}  {result_of(name[1])}\n"
        put(path.with_name(receipt_of(name[1])), receipt.encode())
    return run.returncode


if __name__ == "__main__":
    sys.stdout.reconfigure(line_buffering=True)
    main_of(work, __doc__)
