#!/usr/bin/env python3
"""Splits stopped runs, runs the pieces side by side, joins them, and compares with one run.

    tools/test_scaling.py

Each formula is stopped by a budget, split, its pieces are run by `xargs -P` (and by GNU parallel where
that is installed), joined, and written by the program as a listing; its assignments have to be those
of one run's listing, no two cubes may overlap, and its bytes have to be a listing. The four hard
formulas, of 90 to 115 variables, are split into 4, 16 and 64 pieces each. Then what join.py refuses: a piece that was
not run, one twice, one of another formula, one that was changed.
"""
import pathlib
import random
import shutil
import subprocess
import sys
import tempfile

from check_listing import Tables, Wrong, check_form, read_listing
from dimacs import read
from pieces import digest, line

HERE = pathlib.Path(__file__).resolve().parent
PROGRAM = HERE.parent / "allsat"


def drawn(seed, variables, clauses, width, shown, given=()):
    """A formula of drawn clauses."""
    draw = random.Random(seed)
    lines = [f"p cnf {variables} {clauses}\n", line("c p show", range(1, shown + 1)), line("c p under", given)]
    for _ in range(clauses):
        names = draw.sample(range(1, variables + 1), width)
        lines.append(line("", [draw.choice((-name, name)) for name in names]))
    return "".join(lines).encode()


def pigeons(holes):
    """One pigeon more than holes: no solution."""
    name = lambda pigeon, hole: pigeon * holes + hole + 1
    clauses = [[name(pigeon, hole) for hole in range(holes)] for pigeon in range(holes + 1)]
    for hole in range(holes):
        for pigeon in range(holes + 1):
            clauses += [[-name(other, hole), -name(pigeon, hole)] for other in range(pigeon)]
    shown = [name(0, hole) for hole in range(holes)]
    head = f"p cnf {holes * (holes + 1)} {len(clauses)}\n" + line("c p show", shown)
    return (head + "".join(line("", clause) for clause in clauses)).encode()


def ran(words, data=None, status=0):
    """What a command writes; it has to end with this status."""
    run = subprocess.run(words, input=data, capture_output=True, check=False)
    if run.returncode != status:
        raise Wrong(f"{' '.join(map(str, words))}: status {run.returncode}: {run.stderr.decode()}")
    return run.stdout


def listing(text, *options):
    return ran([PROGRAM, "enumerate", *options], text)


def stopped(text, budget):
    return ran([PROGRAM, "enumerate", "--budget", str(budget)], text, 3)


def split(saved, count, folder):
    path = folder.with_name(folder.name + ".saved")
    path.write_bytes(saved)
    ran([HERE / "split.py", path, str(count), folder])
    return folder


def run_pieces(folder, runner, *options):
    """Runs all pieces, some at a time. A piece may stop."""
    names = "".join(f"{it}\n" for it in sorted(folder.glob("piece-*.cnf"))).encode()
    command = [HERE / "run_piece.py", "{}", *options]
    if runner == "parallel":
        words = ["parallel", "--will-cite", "-j", "4", *command]
    else:
        words = ["xargs", "-P", "4", "-I", "{}", *command]
    run = subprocess.run(words, input=names, capture_output=True, check=False)
    if not options and run.returncode != 0:
        raise Wrong(f"{folder}: a piece failed: {run.stderr.decode()}")


def join(folder):
    return ran([HERE / "join.py", folder])


def assignments_of(cubes, tables):
    """The set of assignments that cubes hold, no two of which may overlap."""
    held = 0
    for number, cube in enumerate(cubes, 1):
        table = tables.cube(cube)
        if held & table:
            raise Wrong(f"cube {number} overlaps an earlier one")
        held |= table
    return held


def check_same(text, joined, alone):
    """That the joined listing is one, and holds the assignments of the other."""
    shown = read(text).shown
    cubes, others = read_listing(joined), read_listing(alone)
    check_form(shown, cubes)
    used = sorted({abs(literal) for cube in cubes + others for literal in cube})
    tables = Tables(used)
    if assignments_of(cubes, tables) != assignments_of(others, tables):
        raise Wrong("the joined listing holds other assignments than that of one run")


def same_set(name, text, budget, count, runner, place):
    """One formula, split and joined."""
    alone = listing(text)
    folder = split(stopped(text, budget), count, place / name)
    run_pieces(folder, runner)
    check_same(text, listing(join(folder)), alone)
    print(f"right: {name}: {count} pieces by {runner}")


def a_chain(text, place):
    """Pieces that stop at a budget, each split again, and one that is joined while it is open."""
    folder = split(stopped(text, 3), 3, place / "chain")
    run_pieces(folder, "xargs", "--budget", "2")
    joined = join(folder)
    inner = split(joined, 4, place / "inner")
    run_pieces(inner, "xargs", "--budget", "5")
    last = split(join(inner), 2, place / "last")
    run_pieces(last, "xargs")
    check_same(text, listing(join(last)), listing(text))
    print("right: pieces that stop are split again")


def refused(folder, name):
    """That join.py refuses this folder, and names the file."""
    run = subprocess.run([HERE / "join.py", folder], capture_output=True, text=True, check=False)
    if run.returncode != 1 or run.stdout or name not in run.stderr:
        raise Wrong(f"{folder}: join.py ends with {run.returncode} and says {run.stderr!r}, without {name}")


def copied(folder, place, name):
    shutil.rmtree(place / name, ignore_errors=True)
    shutil.copytree(folder, place / name)
    return place / name


def swap_result(folder, piece, other, of=None):
    """Puts the result of another piece in the place of this one's."""
    for ending in ("out", "done"):
        shutil.copy((of or folder) / f"piece-{other}.{ending}", folder / f"piece-{piece}.{ending}")


def change_result(folder, piece, other):
    """Puts the cubes of another piece in the place of this one's, with a receipt to match."""
    text, result = folder / f"piece-{piece}.cnf", folder / f"piece-{piece}.out"
    shutil.copy(folder / f"piece-{other}.out", result)
    rows = [f"{digest(it.read_bytes())}  {it.name}\n" for it in (text, result)]
    (folder / f"piece-{piece}.done").write_text("".join(rows), encoding="utf-8")


def what_is_refused(text, place):
    folder = split(stopped(text, 2), 3, place / "whole")
    run_pieces(folder, "xargs")
    join(folder)
    other = split(stopped(text.replace(b" 0\n", b" 1 0\n", 6), 2), 3, place / "other")
    run_pieces(other, "xargs")

    bad = copied(folder, place, "left_out")
    (bad / "piece-2.out").unlink()
    refused(bad, "piece-2.out")

    bad = copied(folder, place, "twice")
    swap_result(bad, 2, 1)
    refused(bad, "piece-2.done")

    bad = copied(folder, place, "without_receipt")
    shutil.copy(bad / "piece-1.out", bad / "piece-2.out")
    refused(bad, "piece-2.done")

    bad = copied(folder, place, "of_another")
    swap_result(bad, 3, 3, other)
    refused(bad, "piece-3.done")

    bad = copied(folder, place, "another_text")
    shutil.copy(other / "piece-3.cnf", bad / "piece-3.cnf")
    refused(bad, "piece-3.cnf")

    bad = copied(folder, place, "cut_off")
    (bad / "piece-1.out").write_bytes((bad / "piece-1.out").read_bytes()[:-6])
    refused(bad, "piece-1.done")

    for rows in (1, 2):
        bad = copied(folder, place, "without_rows")
        kept = (bad / "pieces").read_bytes().splitlines(keepends=True)[:-rows]
        (bad / "pieces").write_bytes(b"".join(kept))
        refused(bad, "pieces")

    bad = copied(folder, place, "outside")
    change_result(bad, 2, 1)
    refused(bad, "piece-2.out")

    bad = copied(folder, place, "without_cubes")
    (bad / "cubes.cnf").unlink()
    refused(bad, "cubes.cnf")
    print("right: what is left out, twice, of another formula or changed is refused by its name")


# Each with a budget that leaves something open, and the numbers of pieces.
FORMULAS = {
    "drawn": (drawn(1, 30, 90, 3, 18), 6, (4,)),
    "hidden": (drawn(2, 60, 230, 3, 12), 2, (4,)),
    "given": (drawn(3, 30, 80, 3, 18, given=(-2, 5)), 4, (4,)),
    "unsatisfiable": (pigeons(5), 1, (4,)),
    "long": (drawn(4, 90, 330, 3, 16), 40, (4, 16, 64)),
    "long_hidden": (drawn(5, 110, 450, 3, 16), 10, (4, 16, 64)),
    "long_given": (drawn(33, 115, 450, 3, 16, given=(-2, 5)), 10, (4, 16, 64)),
    "long_unsatisfiable": (drawn(32, 110, 425, 3, 16, given=(-2, 5)), 1, (4, 16, 64)),
}


def main():
    with tempfile.TemporaryDirectory() as made:
        place = pathlib.Path(made)
        try:
            for name, (text, budget, counts) in FORMULAS.items():
                for count in counts:
                    same_set(f"{name}_{count}", text, budget, count, "xargs", place)
                if shutil.which("parallel"):
                    same_set(f"{name}_by_parallel", text, budget, counts[-1], "parallel", place)
            a_chain(FORMULAS["given"][0], place)
            what_is_refused(FORMULAS["drawn"][0], place)
        except Wrong as wrong:
            print("wrong:", wrong)
            return 1
    return 0


if __name__ == "__main__":
    sys.exit(main())
