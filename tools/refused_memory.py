#!/usr/bin/env python3
"""Refuses memory to the program: in each run one allocation, or all from one on.

tools/refused_memory.py [FORMULAS [SEED [WORKERS]]], at the top. For each drawn formula the program runs plain, with
budgets, from a saved text, and with several workers, which are two where no number is said, and checks a met text of
it that is right and one that is not; besides, it drills two sizes by one worker and by several. Each of these runs is
made once for each allocation that it makes. It has to end with status 0 or 3 as a run with memory may, a check and a
drill with just the output of one with memory, or with status 4, the note, and on standard output nothing or a saved
text. From each saved text a run by one worker and a run by several have to come to a listing that holds just the
formula's set. Each wrong run is a line; the status is 1 then. It is not part of the gate: it needs a C compiler, for a
library that stands before the allocator.
"""

import itertools
import os
import pathlib
import random
import subprocess
import sys
import tempfile

from dimacs import read

# What ./allsat builds: the shell that starts it is not to be refused memory.
PROGRAM = 'crates/allsat_cli/out/build/allsat'
# So many runs in a row that end as one with memory does show that no allocation is left to refuse.
# Several workers make other allocations in each run, and may cut the cubes otherwise.
UNTOUCHED = 12
UNTOUCHED_BY_SEVERAL = 40

LIBRARY = r'''
#define _GNU_SOURCE
#include <dlfcn.h>
#include <errno.h>
#include <stddef.h>
#include <stdlib.h>

static long number = -1, count;

static int refuses(void) {
    if (number < 0) {
        const char *given = getenv("REFUSED");
        number = given ? atol(given) : 0;
    }
    count += 1;
    int refused = number > 0 && (getenv("REFUSED_ON") ? count >= number : count == number);
    if (refused) errno = ENOMEM;
    return refused;
}

void *malloc(size_t size) {
    static void *(*real)(size_t);
    if (!real) real = dlsym(RTLD_NEXT, "malloc");
    return refuses() ? NULL : real(size);
}

void *realloc(void *at, size_t size) {
    static void *(*real)(void *, size_t);
    if (!real) real = dlsym(RTLD_NEXT, "realloc");
    return refuses() ? NULL : real(at, size);
}

void *aligned_alloc(size_t unit, size_t size) {
    static void *(*real)(size_t, size_t);
    if (!real) real = dlsym(RTLD_NEXT, "aligned_alloc");
    return refuses() ? NULL : real(unit, size);
}

int posix_memalign(void **at, size_t unit, size_t size) {
    static int (*real)(void **, size_t, size_t);
    if (!real) real = dlsym(RTLD_NEXT, "posix_memalign");
    return refuses() ? ENOMEM : real(at, unit, size);
}
'''


def draw(draws):
    """A text of clauses of three literals, with hidden variables, and in half of the cases a given literal."""
    variables = draws.randint(4, 8)
    shown = sorted(draws.sample(range(1, variables + 1), draws.randint(2, variables)))
    count = draws.randint(variables, 3 * variables)
    lines = [f'p cnf {variables} {count}', f'c p show {" ".join(map(str, shown))} 0']
    if draws.random() < 0.5:
        lines.append(f'c p under {draws.choice([-1, 1]) * shown[0]} 0')
    for _ in range(count):
        clause = draws.sample(range(1, variables + 1), 3)
        lines.append(' '.join(str(draws.choice([-1, 1]) * it) for it in clause) + ' 0')
    return '\n'.join(lines) + '\n'


def models_of(text):
    """Of each shown assignment that extends to a model the first model, as literals."""
    said = read(text.encode())
    clauses = said.clauses + [[literal] for literal in said.under]
    found = {}
    for signs in itertools.product((-1, 1), repeat=said.variables):
        model = [sign * variable for variable, sign in enumerate(signs, 1)]
        if all(any(literal in model for literal in clause) for clause in clauses):
            found.setdefault(tuple(literal for literal in model if abs(literal) in said.shown), model)
    return found


def met_text(text, doubled=False):
    """A met text of each such assignment. Where the last one is doubled, it overlaps itself."""
    lines = []
    for cube, model in models_of(text).items():
        hidden = [literal for literal in model if literal not in cube]
        lines.append(f'c p met {" ".join(map(str, (*cube, 0, *hidden, 0)))}\n')
    lines += lines[-1:] if doubled else []
    return f'c allsat met 1\n{text}{"".join(lines)}c p end\n'


def drill_text(size):
    """The formula of a drill, as docs/FORMATS.md gives it."""
    clauses = []
    for i in range(1, size + 1):
        rows = {1: [(i, i + 1)] if i < size else [], 2: [(-i, size + i)],
                3: [(-i, size + i), (-i, -size - i)], 0: [(i, size + i), (i, -size - i)]}
        clauses += rows[i % 4]
    shown = ' '.join(map(str, range(1, size + 1)))
    lines = [f'p cnf {2 * size} {len(clauses)}', f'c p show {shown} 0', *(f'{a} {b} 0' for a, b in clauses)]
    return '\n'.join(lines) + '\n'


class Trial:
    """Runs over one formula, and what they came to."""

    def __init__(self, place, text, several):
        self.library, self.formula = place / 'library.so', place / 'formula'
        self.text, self.several = text, several
        self.formula.write_text(text, encoding='utf-8')
        self.runs = self.refused = self.saved = self.wrong = 0

    def run(self, text, words, number=0, on=False):
        """Status, output and notes, where this allocation is refused, or all from it on."""
        environment = dict(os.environ)
        if number:
            environment.update(LD_PRELOAD=str(self.library), REFUSED=str(number))
            if on:
                environment['REFUSED_ON'] = '1'
        ran = subprocess.run([PROGRAM, *words], input=text, capture_output=True, text=True,
                             env=environment, check=False)
        return ran.returncode, ran.stdout, ran.stderr

    def is_right(self, listing):
        checked = subprocess.run(['tools/check_listing.py', self.formula], input=listing, capture_output=True,
                                 text=True, check=False)
        return checked.returncode == 0

    def goes_on(self, saved):
        """Whether runs from this text, by one worker and by several, come to right listings."""
        ends = [self.run(saved, ['enumerate', *workers]) for workers in ([], self.several)]
        return all(status == 0 and notes == '' and self.is_right(listing) for status, listing, notes in ends)

    def ends_well(self, words, wanted, ended):
        """Whether a run may end so, where one with memory comes to what is wanted."""
        status, out, notes = ended
        if status == 4:
            self.refused += 1
            self.saved += out != ''
            saves = words[0] != 'check'
            return notes == 'allsat: out of memory\n' and (out == '' or (saves and self.goes_on(out)))
        if words[0] != 'enumerate':
            return ended == wanted
        if status == 0:
            return notes == '' and self.is_right(out)
        return status == 3 and notes == 'allsat: budget spent\n' and self.goes_on(out)

    def refuse_each(self, text, words, on):
        """Refuses each allocation of a run in turn."""
        wanted = self.run(text, words)
        by_several = words[-2:] == self.several
        number = untouched = 0
        while untouched < (UNTOUCHED_BY_SEVERAL if by_several else UNTOUCHED):
            number += 1
            self.runs += 1
            ended = self.run(text, words, number, on)
            same = ended[0] in (0, 3) if by_several else ended == wanted
            untouched = untouched + 1 if same else 0
            if (by_several or not same) and not self.ends_well(words, wanted, ended):
                self.wrong += 1
                print(f'wrong: allocation {number} refused, {" ".join(words)}: status {ended[0]} on {text!r}')

    def refuse_all(self, cases):
        for text, words in cases:
            for on in (False, True):
                self.refuse_each(text, words, on)

    def refuse_listing(self):
        """Of runs that list the formula, from its text and from a saved one, and of its checks."""
        cases = [(self.text, []), (self.text, ['--budget', '1']), (self.text, ['--budget', '3'])]
        status, saved, _ = self.run(self.text, ['enumerate', '--budget', '2'])
        if status == 3:
            cases += [(saved, []), (saved, ['--budget', '1']), (saved, self.several)]
        cases += [(self.text, self.several), (self.text, ['--budget', '2', *self.several])]
        self.refuse_all([(text, ['enumerate', *options]) for text, options in cases])
        self.refuse_all([(met_text(self.text, doubled), ['check']) for doubled in (False, True)])


def trials(place, formulas, draws, several):
    """All that is tried."""
    for size in (3, 5):
        trial = Trial(place, drill_text(size), several)
        words = ['drill', '--size', str(size)]
        trial.refuse_all([('', words), ('', [*words, *several])])
        yield trial
    for _ in range(formulas):
        trial = Trial(place, draw(draws), several)
        trial.refuse_listing()
        yield trial


def main():
    formulas = int(sys.argv[1]) if len(sys.argv) > 1 else 5
    draws = random.Random(int(sys.argv[2]) if len(sys.argv) > 2 else 1)
    several = ['--workers', sys.argv[3] if len(sys.argv) > 3 else '2']
    runs = refused = saved = wrong = 0
    subprocess.run(['./allsat', 'enumerate'], input='p cnf 0 0\n', text=True, stdout=subprocess.DEVNULL, check=True)
    with tempfile.TemporaryDirectory() as name:
        place = pathlib.Path(name)
        (place / 'library.c').write_text(LIBRARY, encoding='utf-8')
        subprocess.run(['cc', '-shared', '-fPIC', '-O1', '-o', place / 'library.so', place / 'library.c', '-ldl'],
                       check=True)
        for trial in trials(place, formulas, draws, several):
            runs, refused = runs + trial.runs, refused + trial.refused
            saved, wrong = saved + trial.saved, wrong + trial.wrong
    if not wrong:
        print(f'right: {runs} runs on {formulas} formulas and two drills, {refused} of them ended at want of memory, '
              f'{saved} with a saved text')
    return 1 if wrong else 0


if __name__ == '__main__':
    sys.exit(main())
