#!/usr/bin/env python3
"""Times the program's search, formula by formula.

    bench/search.py [--limit SECONDS] [--no-count] [FORMULA..]
    bench/search.py --workers [--limit SECONDS] [FORMULA..]

Each formula (a DIMACS text; where none is named, those of bench/formulas and the families below)
is listed once by the program, for at most so many seconds, 60 where nothing else is said. Printed
are the cubes of the listing, the seconds, the greatest memory in MB (10^6 bytes), and the
millions of instructions, which do not depend on the load of the machine: valgrind counts them in
a second run, of at most twenty times the limit, where it is installed and --no-count is not said.
Where clasp is installed, the points that it lists by the same projected enumeration and its seconds
stand beside, over the same clauses as an aspif text; it writes none of them out. A dash stands for
what was not measured or did not end. Memory below some 16 MB, what Python takes, is not told.

The families, made in a folder of its own that is taken away at the end:

  random     clauses of three literals, few enough that there are many solutions
  chains     implications in a row, each chain true or false as a whole: no conflict at all
  adder      a circuit that adds two numbers, all gates hidden: the pairs with a given sum
  parity     a circuit of exclusive ors in a row, all gates hidden
  pigeons    pigeons into one hole less: no solution
  products   a space of configurations: features in groups, of which one each is chosen, with
             demands between them, and helper variables hidden

With --workers each formula (where none is named, larger ones of these families, and clauses of which
few variables are shown, which are hard to meet) is listed by 1, 2 and 4 workers in turn. Printed are,
for each number of workers, the seconds of the clock, those of the processors, and the cubes. Run it
on a machine that does nothing else: the seconds of the clock tell little where processors are busy.
"""
import argparse
import os
import random
import re
import shutil
import subprocess
import sys
import tempfile
import time
from collections import namedtuple
from itertools import combinations
from pathlib import Path

TOP = Path(__file__).resolve().parent.parent
sys.path.insert(0, str(TOP / "tools"))
import dimacs  # noqa: E402

PROGRAM = str(TOP / "crates" / "allsat_cli" / "out" / "build" / "allsat")

TOO_LONG = 124  # the status of `timeout` where it ended what it ran
HEADS = ("formula", "cubes", "seconds", "MB", "M instr.", "points", "clasp")

Run = namedtuple("Run", "status seconds processor memory output notes")


class Circuit:
    """Clauses of gates over numbered variables, the inputs first."""

    def __init__(self, inputs):
        self.variables = inputs
        self.shown = list(range(1, inputs + 1))
        self.clauses = []

    def gate(self):
        self.variables += 1
        return self.variables

    def both(self, left, right):
        """A variable that is true where both are."""
        out = self.gate()
        self.clauses += [[-out, left], [-out, right], [out, -left, -right]]
        return out

    def differ(self, left, right):
        """A variable that is true where just one is."""
        out = self.gate()
        self.clauses += [[-out, left, right], [-out, -left, -right]]
        self.clauses += [[out, -left, right], [out, left, -right]]
        return out

    def either(self, left, right):
        """A variable that is true where one is."""
        return -self.both(-left, -right)


def random_clauses(variables, count, chosen=None):
    choose = random.Random(1)
    clauses = []
    for _ in range(count):
        named = choose.sample(range(1, variables + 1), 3)
        clauses.append([choose.choice((1, -1)) * variable for variable in named])
    return variables, clauses, chosen and list(range(1, chosen + 1))


def chains(count, length):
    clauses = []
    for start in range(1, count * length + 1, length):
        ring = list(range(start, start + length))
        clauses += [[-left, right] for left, right in zip(ring, ring[1:] + ring[:1])]
    return count * length, clauses, None


def adder(bits, total):
    circuit = Circuit(2 * bits)
    carry = None
    for place in range(bits):
        left, right = 1 + place, 1 + bits + place
        half = circuit.differ(left, right)
        out, next_carry = half, circuit.both(left, right)
        if carry is not None:
            out = circuit.differ(half, carry)
            next_carry = circuit.either(next_carry, circuit.both(half, carry))
        circuit.clauses.append([out if total >> place & 1 else -out])
        carry = next_carry
    return circuit.variables, circuit.clauses, circuit.shown


def parity(inputs):
    circuit = Circuit(inputs)
    out = 1
    for place in range(2, inputs + 1):
        out = circuit.differ(out, place)
    circuit.clauses.append([out])
    return circuit.variables, circuit.clauses, circuit.shown


def pigeons(holes):
    def place(pigeon, hole):
        return pigeon * holes + hole + 1

    clauses = [[place(pigeon, hole) for hole in range(holes)] for pigeon in range(holes + 1)]
    for hole in range(holes):
        for one, other in combinations(range(holes + 1), 2):
            clauses.append([-place(one, hole), -place(other, hole)])
    return holes * (holes + 1), clauses, None


def products(groups, size, demands):
    choose = random.Random(1)
    features = groups * size
    clauses = []
    for start in range(1, features + 1, size):
        group = range(start, start + size)
        clauses.append(list(group))
        clauses += [[-one, -other] for one, other in combinations(group, 2)]
    helpers = range(features + 1, features + demands + 1)
    for helper in helpers:
        one, other, third = choose.sample(range(1, features + 1), 3)
        clauses += [[-one, helper], [-helper, other, third], [-helper, one, -other]]
    return features + demands, clauses, list(range(1, features + 1))


WORKERS = ("1", "2", "4")

FAMILIES = {
    "random-28": lambda: random_clauses(28, 56),
    "random-60": lambda: random_clauses(60, 240),
    "chains-16": lambda: chains(16, 40),
    "adder-14": lambda: adder(14, 9_999),
    "parity-16": lambda: parity(16),
    "pigeons-6": lambda: pigeons(6),
    "products-8": lambda: products(8, 5, 24),
}

# Harder ones, for several workers.
LARGE = {
    "hard-90": lambda: random_clauses(90, 330, 24),
    "hard-100": lambda: random_clauses(100, 390, 16),
    "hard-115": lambda: random_clauses(115, 460, 20),
    "hard-140": lambda: random_clauses(140, 590, 16),
    "random-40": lambda: random_clauses(40, 80),
    "chains-17": lambda: chains(17, 40),
    "adder-20": lambda: adder(20, 999_999),
    "parity-22": lambda: parity(22),
    "pigeons-9": lambda: pigeons(9),
    "products-11": lambda: products(11, 5, 24),
}


def write_formula(path, variables, clauses, shown):
    lines = ["p cnf %d %d" % (variables, len(clauses))]
    if shown is not None:
        lines.append("c p show %s 0" % " ".join(map(str, shown)))
    lines += [" ".join(map(str, clause + [0])) for clause in clauses]
    path.write_text("\n".join(lines) + "\n")


def write_aspif(path, formula):
    """The formula as a program whose atoms are its variables, projected on the shown ones."""
    lines = ["asp 1 0 0"]
    lines += ["1 1 1 %d 0 0" % variable for variable in range(1, formula.variables + 1)]
    for clause in formula.clauses:
        body = sorted({-literal for literal in clause})
        lines.append("1 0 0 0 %d %s" % (len(body), " ".join(map(str, body))))
    lines.append("3 %d %s" % (len(formula.shown), " ".join(map(str, formula.shown))))
    path.write_text("\n".join(lines) + "\n0\n")


def run(words, source, folder, limit):
    """Runs the words on this input, for at most so many seconds."""
    output, notes = folder / "out", folder / "notes"
    with source.open("rb") as text, output.open("wb") as sink, notes.open("wb") as errors:
        start = time.monotonic()
        words = ["timeout", str(limit)] + words
        process = subprocess.Popen(words, stdin=text, stdout=sink, stderr=errors)
        _, status, usage = os.wait4(process.pid, 0)
        seconds = time.monotonic() - start
        process.returncode = os.waitstatus_to_exitcode(status)
    processor, memory = usage.ru_utime + usage.ru_stime, usage.ru_maxrss * 1024 / 1e6
    return Run(process.returncode, seconds, processor, memory, output, notes)


def listed(path, folder, limit, *words):
    """Lists the formula: how many cubes, and the run; None where it did not end."""
    found = run([PROGRAM, "enumerate", *words], path, folder, limit)
    if found.status == TOO_LONG:
        return None
    # Line by line: a process that is started counts the memory that this one has by then.
    lines, last = 0, b""
    with found.output.open("rb") as listing:
        for last in listing:
            lines += 1
    if found.status != 0 or last != b"s ALL\n":
        sys.exit("wrong: %s: status %d, %r" % (path, found.status, found.notes.read_bytes()))
    return lines - 1, found


def counted(path, folder, limit):
    """The millions of instructions of the same, where valgrind is installed."""
    words = ["valgrind", "--tool=callgrind", "--callgrind-out-file=/dev/null"]
    found = run(words + [PROGRAM, "enumerate"], path, folder, limit)
    number = re.search(rb"Collected : (\d+)", found.notes.read_bytes())
    return int(number[1]) / 1e6 if found.status == 0 and number else None


def by_clasp(path, folder, limit):
    """The points and the seconds of clasp for the same projected enumeration."""
    program = folder / "program.aspif"
    write_aspif(program, dimacs.read(path.read_bytes()))
    found = run(["clasp", "0", "-q", "--project=project"], program, folder, limit)
    number = re.search(rb"Models +: (\d+)", found.output.read_bytes())
    if found.status == TOO_LONG or not number:
        return None, None
    return int(number[1]), found.seconds


def shown(number, form):
    return "-" if number is None else form % number


def search_row(path, folder, said):
    """One formula, by one worker, and beside it what valgrind and clasp say."""
    cubes, found = listed(path, folder, said.limit) or (None, None)
    seconds, memory = (found.seconds, found.memory) if found else (None, None)
    counts = found and shutil.which("valgrind") and not said.no_count
    count = counted(path, folder, 20 * said.limit) if counts else None
    points, clasp = by_clasp(path, folder, said.limit) if shutil.which("clasp") else (None, None)
    row = path.stem, shown(cubes, "%d"), shown(seconds, "%.2f"), shown(memory, "%.0f")
    row += shown(count, "%.0f"), shown(points, "%d"), shown(clasp, "%.2f")
    print("%-16s %9s %8s %8s %10s %10s %8s" % row, flush=True)


def workers_row(path, folder, said):
    """One formula, by 1, 2 and 4 workers."""
    print("%-16s" % path.stem, end="", flush=True)
    for workers in WORKERS:
        cubes, found = listed(path, folder, said.limit, "--workers", workers) or (None, None)
        seconds, processor = (found.seconds, found.processor) if found else (None, None)
        row = shown(seconds, "%.2f"), shown(processor, "%.2f"), shown(cubes, "%d")
        print(" %8s %8s %9s" % row, end="", flush=True)
    print()


def print_heads(said):
    if said.workers:
        print("%-16s" % "" + "".join(" %27s" % (it + " worker" + "s" * (it > "1")) for it in WORKERS))
        print("%-16s" % "formula" + " %8s %8s %9s" % ("clock", "CPU", "cubes") * len(WORKERS))
    else:
        print("%-16s %9s %8s %8s %10s %10s %8s" % HEADS)


def formulas_of(said, folder):
    """The formulas that are named; where none is, those of the folder and the families."""
    if said.formulas:
        return said.formulas
    paths = [] if said.workers else sorted((TOP / "bench" / "formulas").glob("*.cnf"))
    for name, make in (LARGE if said.workers else FAMILIES).items():
        paths.append(folder / (name + ".cnf"))
        write_formula(paths[-1], *make())
    return paths


def main():
    style = argparse.RawDescriptionHelpFormatter
    parser = argparse.ArgumentParser(description=__doc__, formatter_class=style)
    parser.add_argument("--limit", type=int, default=60)
    parser.add_argument("--no-count", action="store_true")
    parser.add_argument("--workers", action="store_true")
    parser.add_argument("formulas", nargs="*", type=Path)
    said = parser.parse_args()
    build = [TOP / "allsat", "enumerate"]
    subprocess.run(build, input=b"p cnf 0 0\n", stdout=subprocess.DEVNULL, check=True)
    folder = Path(tempfile.mkdtemp())
    try:
        paths = formulas_of(said, folder)
        print_heads(said)
        for path in paths:
            (workers_row if said.workers else search_row)(path, folder, said)
    finally:
        shutil.rmtree(folder)


if __name__ == "__main__":
    main()
