#!/usr/bin/env python3
"""Lists hard drawn formulas by one worker and by several, and compares the sets.

    tools/many_workers.py [--beside LISTER] [FORMULAS [FIRST]]

Each formula has 20 to 45 variables, some of them hidden, in a third of the cases a given literal, and
3.2 to 4.6 times as many clauses of three literals. It is listed by one worker, and then by 2, 4 and 16:
at once, and stopped by a small budget and gone on with until it ends, by several workers and by one in
turn. Each listing has to hold the assignments of the first one, and no two cubes may overlap. Where a
lister is named, a program that reads a formula and writes a listing of it, whatever the given literals,
it is the measure, and the listing of one worker is compared with it too. It ends with status 0 and the
number of runs, or with status 1 and the first formula that is listed otherwise. It is not part of the
gate: schedules differ from run to run, and many runs show more than few.
"""
import argparse
import pathlib
import random
import subprocess
import sys

from check_listing import Tables, Wrong, check_form, read_listing
from dimacs import read
from test_scaling import assignments_of, drawn

PROGRAM = pathlib.Path(__file__).resolve().parent.parent / "crates/allsat_cli/out/build/allsat"
# From this stop on the budget is doubled each time, so that each row of runs ends soon.
PATIENCE = 6


def hard_formula(draws, seed):
    variables = draws.randint(20, 45)
    shown = draws.randint(8, min(variables, 16))
    given = [draws.choice([-1, 1]) * draws.randint(1, shown)] if draws.random() < 0.3 else []
    return drawn(seed, variables, int(variables * draws.uniform(3.2, 4.6)), 3, shown, given)


class Trial:
    """The runs on one formula."""

    def __init__(self, text, beside):
        self.text, self.runs = text, 0
        formula = read(text)
        self.shown = formula.shown
        self.tables = Tables(self.shown)
        alone = self.run(text)[1]
        self.wanted = assignments_of(read_listing(alone), self.tables)
        if beside:
            ran = subprocess.run([beside], input=text, capture_output=True, check=True)
            self.wanted = assignments_of(read_listing(ran.stdout), self.tables)
            for literal in formula.under:
                self.wanted &= self.tables.of_literal[literal]
            self.check(alone)

    def run(self, text, *options):
        self.runs += 1
        ran = subprocess.run([PROGRAM, "enumerate", *options], input=text, capture_output=True, check=False)
        if ran.returncode not in ((0, 3) if "--budget" in options else (0,)):
            raise Wrong(f"{' '.join(options)}: status {ran.returncode}")
        return ran.returncode, ran.stdout

    def in_steps(self, workers, budget):
        """The listing at the end of a row of runs, each of which goes on from the one before."""
        text, stops = self.text, 0
        while True:
            by = workers if stops % 3 else "1"
            status, text = self.run(text, "--workers", by, "--budget", str(budget))
            if status == 0:
                return text
            stops += 1
            budget = 2 * budget if stops > PATIENCE else budget

    def check(self, listing):
        cubes = read_listing(listing)
        check_form(self.shown, cubes)
        if assignments_of(cubes, self.tables) != self.wanted:
            raise Wrong("the listing holds other assignments than the first one")


def main():
    parser = argparse.ArgumentParser(description=__doc__.splitlines()[0])
    parser.add_argument("--beside", metavar="LISTER")
    parser.add_argument("formulas", type=int, nargs="?", default=60)
    parser.add_argument("first", type=int, nargs="?", default=0)
    said = parser.parse_args()
    runs = 0
    for seed in range(said.first, said.first + said.formulas):
        draws = random.Random(seed)
        try:
            trial = Trial(hard_formula(draws, seed), said.beside)
            for workers in ("2", "4", "16"):
                trial.check(trial.run(trial.text, "--workers", workers)[1])
                trial.check(trial.in_steps(workers, draws.randint(1, 12)))
        except Wrong as wrong:
            print(f"wrong: formula {seed}: {wrong}")
            return 1
        runs += trial.runs
    print(f"right: {runs} runs on {said.formulas} formulas")
    return 0


if __name__ == "__main__":
    sys.exit(main())
