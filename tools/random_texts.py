#!/usr/bin/env python3
"""Runs the program on random small texts, and compares each run with the checker's own reader and
check.

    tools/random_texts.py [COUNT [SEED]]

The texts say formulas of up to 9 variables and 14 clauses, with empty clauses, repeated literals
and pairs among them, clauses that share lines and go on over lines, all five kinds of white
space, comment, show and under lines anywhere, some with a % line, and some with the lines of a
saved text or of a met text. About half of them are damaged then: bytes, tokens and lines are changed, added and taken away. The texts of the table in
tools/test_checker.py are tried first. Compared are the status, the note with the refusal's
number, name and line, and the listing: its form, its order, and that it holds exactly the good
assignments, none twice. Each text is run at once, once more by two or four workers, and under a
small budget, again and again from what the run before saved; and its met lines are checked, which has to come to the
checker's own verdict. It ends with status 0, or with status 1 and the first text
on which program and checker differ.
"""
import random
import subprocess
import sys
from collections import Counter
from pathlib import Path

import check_met
from check_listing import Tables, Wrong, check, check_form, extending, read_listing
from dimacs import NUMBERS, Refused, read
from test_checker import TABLE, text_of

TOP = Path(__file__).resolve().parent.parent
PROGRAM = TOP / "crates" / "allsat_cli" / "out" / "build" / "allsat"

WHITE = [b"\t", b"\x0b", b"\x0c", b"\r", b" "]
SEVENS = b"7" * 400
NASTY_TOKENS = b"-0 +1 00 0001 -03 1x x - --1 1- -+1 0x1 1.0 p % c cnf show c% %p 0%".split(b" ")
NASTY_TOKENS += b"1000000 1000001 4000000 4000001 4294967297 18446744073709551617".split(b" ")
NASTY_TOKENS += [b"\x00", b"1\x00", b"\x1c", b"\x80\xff", b"\xc2\xa0", b"1\xa0"]
NASTY_TOKENS += [SEVENS, b"-" + SEVENS, b"0" * 400 + b"1"]
COMMENTS = b"""c
cp show 1 0
c p
c p showing 1 0
c p show1 0
c p  Show 1
cc p show 1 0
c c p show 7
comment p show
c show 1 0
c p open 2 1 0
c p cube x
c p end
c p met 1 0 2 0
c p weight 1 0.4 0
c p weight -1 0.6 0
c t pmc
c ind 1 2 0
c 1 2 0
c%
c allsat
c allsat saved 1
c allsat met 1""".split(b"\n")
FIRST_LINES = [b"c allsat saved 1", b"c  allsat\tsaved", b" c allsat met x", b"c allsat met 1"]
FIRST_LINES += [b"c allsat saved1", b"call sat met"]
HEADERS = [(1_000_000, 0), (1_000_001, 0), (1_000_001, 4_000_001), (3, 4_000_000), (3, 4_000_001)]
HEADERS += [(8_192, 0), (8_193, 0)]
RARE = ["TooManyVariables", "TooManyClauses", "TooManyLiterals", "TooManyShown", "TextTooLong"]
NOTED = [name for name in NUMBERS if name not in RARE + ["UnderUnended", "NoMetText"]]


def random_bytes(choose, most):
    """Up to so many bytes of a line."""
    values = [value for value in range(256) if value != 10]
    return bytes(choose.choice(values) for _ in range(choose.randint(0, most)))


def number(choose, value):
    """The value as a token, sometimes with leading zeros."""
    zeros = b"0" * choose.choice([1, 2, 30]) if choose.random() < 0.05 else b""
    return (b"-" if value < 0 else b"") + zeros + b"%d" % abs(value)


def white(choose):
    """White space, in most cases one space."""
    if choose.random() < 0.8:
        return b" "
    return b"".join(choose.choice(WHITE) for _ in range(choose.choice([1, 1, 2, 3])))


def line_of(choose, tokens):
    """The tokens as a line, with white space between them and sometimes around them."""
    line = b"".join(token + white(choose) for token in tokens)
    if choose.random() < 0.8:
        line = line.rstrip(b"".join(WHITE))
    return line if choose.random() < 0.9 else white(choose) + line


def comment_line(choose):
    line = choose.choice(COMMENTS)
    return line if choose.random() < 0.6 else line + choose.choice(WHITE) + random_bytes(choose, 12)


def show_line(choose, variables):
    """A show line, which seldom names a variable above those of the header."""
    most = variables + 1 if choose.random() < 0.03 else variables
    shown = [choose.randint(1, most) for _ in range(choose.choice([0, 1, 2, 3, 5]))] if most else []
    words = [b"c", b"p", b"show"] + [number(choose, value) for value in shown + [0]]
    return line_of(choose, words)


def under_line(choose, variables):
    """An under line, which sometimes holds a literal that cannot be given."""
    most = variables + 1 if choose.random() < 0.03 else variables
    count = choose.choice([0, 1, 1, 2]) if most else 0
    given = [choose.choice([1, -1]) * choose.randint(1, most) for _ in range(count)]
    words = [b"c", b"p", b"under"] + [number(choose, value) for value in given + [0]]
    return line_of(choose, words)


def cube_line(choose, variables):
    """A cube line or an open line, which sometimes holds what is no cube."""
    most = variables + 1 if choose.random() < 0.1 else variables
    count = choose.randint(0, min(most, 3))
    cube = choose.sample(range(1, most + 1), count)
    if choose.random() < 0.9:
        cube.sort()
    literals = [choose.choice([1, -1]) * variable for variable in cube]
    words = [b"c", b"p", choose.choice([b"cube", b"open"])]
    return line_of(choose, words + [number(choose, value) for value in literals + [0]])


def make_saved(choose, lines, variables):
    """The lines become those of a saved text, which in most cases has an end line."""
    for _ in range(choose.choice([0, 1, 2, 4])):
        lines.insert(choose.randint(0, len(lines)), cube_line(choose, variables))
    lines.insert(0, choose.choice([b"c allsat saved 1", b"c allsat saved 2"]))
    if choose.random() < 0.9:
        lines.append(b"c p end")


def met_line(choose, variables):
    """A met line, whose variables rise and are of the formula in most cases."""
    most = variables + choose.choice([0, 0, 0, 0, 0, 1])
    values = []
    names = list(range(1, most + 1))
    kept = choose.sample(names, choose.randint(0, len(names)))
    cut = choose.randint(0, len(kept))
    for part in (kept[:cut], kept[cut:]):
        if choose.random() < 0.95:
            part.sort()
        values += [choose.choice([1, -1]) * variable for variable in part] + [0]
    words = [b"c", b"p", b"met"]
    return line_of(choose, words + [number(choose, value) for value in values])


def make_met(choose, lines, variables):
    """The lines become those of a met text, which in most cases has an end line."""
    for _ in range(choose.choice([0, 1, 2, 3, 5])):
        lines.insert(choose.randint(0, len(lines)), met_line(choose, variables))
    lines.insert(0, b"c allsat met 1")
    if choose.random() < 0.9:
        lines.append(b"c p end")


def random_clauses(choose, variables):
    clauses = []
    for _ in range(choose.randint(0, 14)):
        if variables and choose.random() > 0.02:
            width = choose.choice([1, 2, 2, 3, 3, 3, 4, 6])
            signs = [choose.choice([1, -1]) for _ in range(width)]
            clauses.append([sign * choose.randint(1, variables) for sign in signs])
        elif choose.random() < 0.2:
            clauses.append([])
    return clauses


def clause_lines(choose, clauses):
    """The clauses as lines: each on its own, or cut anywhere."""
    tokens = [number(choose, literal) for clause in clauses for literal in clause + [0]]
    cut = choose.choice([0.05, 0.3, 0.9])
    by_clause = choose.random() < 0.5
    lines, line = [], []
    for token in tokens:
        line.append(token)
        if token.strip(b"0") == b"" if by_clause else choose.random() < cut:
            lines.append(line_of(choose, line))
            line = []
    return lines + ([line_of(choose, line)] if line else [])


def tidy_text(choose):
    """A text that says a formula, in most cases."""
    variables = choose.randint(0, 9)
    clauses = random_clauses(choose, variables)
    header = variables, len(clauses)
    if choose.random() < 0.04:
        header = choose.choice(HEADERS)
        clauses = []
    words = [b"p", b"cnf", number(choose, header[0]), number(choose, header[1])]
    lines = [line_of(choose, words)] + clause_lines(choose, clauses)
    others = [comment_line(choose) for _ in range(choose.choice([0, 0, 1, 2, 4]))]
    others += [choose.choice([b"", b"", white(choose)]) for _ in range(choose.choice([0, 0, 1, 3]))]
    others += [show_line(choose, header[0]) for _ in range(choose.choice([0, 0, 0, 1, 1, 2, 3]))]
    others += [under_line(choose, header[0]) for _ in range(choose.choice([0, 0, 0, 0, 1, 1, 2]))]
    for line in others:
        lines.insert(choose.randint(0, len(lines)), line)
    if choose.random() < 0.03:
        lines.insert(0, choose.choice(FIRST_LINES))
    elif choose.random() < 0.2:
        make_saved(choose, lines, header[0])
    elif choose.random() < 0.25:
        make_met(choose, lines, header[0])
    if choose.random() < 0.15:
        lines.append(choose.choice([b"%", b"%0", b" % x", b"%%", b"%p cnf"]))
        lines += [random_bytes(choose, 9) for _ in range(choose.randint(0, 3))]
    end = choose.choice([b"\n", b"\n", b"\n", b"\r\n", b"\n\n"])
    return end.join(lines) + (end if choose.random() < 0.85 else b"")


def any_byte(choose):
    return bytes([choose.choice([choose.randrange(256), *b"\n\r 0-+%cpx19"])])


def change_byte(choose, text):
    place = choose.randrange(len(text) + 1)
    return text[:place] + any_byte(choose) + text[place + 1 :]


def insert_byte(choose, text):
    place = choose.randrange(len(text) + 1)
    return text[:place] + any_byte(choose) + text[place:]


def delete_byte(choose, text):
    place = choose.randrange(len(text) + 1)
    return text[:place] + text[place + 1 :]


def change_token(choose, text):
    """One word of the text is another then, or gone."""
    words = text.split(b" ")
    other = choose.choice(NASTY_TOKENS + [b"", b"%d" % choose.randint(0, 12)])
    words[choose.randrange(len(words))] = other
    return b" ".join(words)


def add_token(choose, text):
    """One more word stands in the text."""
    words = text.split(b" ")
    words.insert(choose.randint(0, len(words)), choose.choice(NASTY_TOKENS))
    return b" ".join(words)


def any_line(choose, lines):
    """The place of a line; in half of the cases of one that may be a header or a show line."""
    marked = [place for place, line in enumerate(lines) if b"p" in line]
    if marked and choose.random() < 0.5:
        return choose.choice(marked)
    return choose.randrange(len(lines))


def change_lines(choose, text):
    """A line is deleted or doubled, or two lines change places."""
    lines = text.split(b"\n")
    place, other = any_line(choose, lines), choose.randrange(len(lines))
    change = choose.randrange(3)
    if change == 0:
        del lines[place]
    elif change == 1:
        lines.insert(other, lines[place])
    else:
        lines[place], lines[other] = lines[other], lines[place]
    return b"\n".join(lines)


def shorten_line(choose, text):
    """A line loses its last word."""
    lines = text.split(b"\n")
    place = any_line(choose, lines)
    lines[place] = lines[place].rstrip().rpartition(b" ")[0]
    return b"\n".join(lines)


def cut(choose, text):
    return text[: choose.randrange(len(text) + 1)]


DAMAGES = [change_byte, insert_byte, delete_byte, change_token, change_token, add_token]
DAMAGES += [change_lines, change_lines, shorten_line, cut]


def random_text(choose):
    text = tidy_text(choose)
    if choose.random() < 0.5:
        for _ in range(choose.choice([1, 1, 1, 2, 3])):
            text = choose.choice(DAMAGES)(choose, text)
    return text


def check_resumed(formula, cubes):
    """The listing of a run that went on from a saved text, whose lines may say anything: each
    assignment lies in so many cubes as it does in saved cubes, and, where it is good, in prefixes
    that were pending."""
    check_form(formula.shown, cubes, strictly=False)
    saved, pending = formula.saved
    clauses = formula.clauses + [[literal] for literal in formula.under]
    used = {abs(literal) for literals in clauses + cubes + saved + pending for literal in literals}
    tables = Tables(sorted(used & set(formula.shown)))
    good = extending(clauses, tables, tables.all)
    for place in range(1 << len(tables.variables)):
        bit = 1 << place
        wanted = sum(1 for cube in saved if tables.cube(cube) & bit)
        if good & bit:
            wanted += sum(1 for prefix in pending if tables.cube(prefix) & bit)
        if wanted != sum(1 for cube in cubes if tables.cube(cube) & bit):
            raise Wrong("so many cubes do not hold `%s`" % tables.first(bit))


def difference(said, ran):
    """What the run does otherwise than the checker says, or None."""
    if isinstance(said, Refused):
        if (ran.returncode, ran.stdout, ran.stderr) == (2, b"", said.note().encode() + b"\n"):
            return None
        return "the checker says: " + said.note()
    if (ran.returncode, ran.stderr) != (0, b""):
        return "the checker accepts the text"
    try:
        cubes = read_listing(ran.stdout)
        check_resumed(said, cubes) if said.saved else check(said, cubes)
    except Wrong as wrong:
        return "the listing is wrong: %s" % wrong
    return None


def check_difference(text, ran):
    """What a check does otherwise than the checker says, or None."""
    status, out, note = check_met.check(text)
    wanted = (status, *(line.encode() + b"\n" if line else b"" for line in (out, note)))
    if (ran.returncode, ran.stdout, ran.stderr) == wanted:
        return None
    return "the checker's verdict: %d %s %s" % (status, out, note)


def run_program(text, *options, command="enumerate"):
    words = [PROGRAM, command, *options]
    return subprocess.run(words, input=text, capture_output=True, timeout=120)


def run_in_steps(text, budget, workers):
    """The last of a row of runs with a budget, each of which goes on from the text of the one
    before, by one worker and by several in turn."""
    for turn in range(10_000):
        ran = run_program(text, "--budget", str(budget), "--workers", str(workers if turn % 2 else 1))
        if (ran.returncode, ran.stderr) != (3, b"allsat: budget spent\n"):
            return ran
        text = ran.stdout
    raise SystemExit("wrong: a run with a budget of %d does not come to an end" % budget)


def try_text(name, text, said, budget, workers):
    """Runs the program on the text, at once, by several workers and in steps, and ends the script
    where it does otherwise than it has to."""
    runs = (run_program(text), run_program(text, "--workers", str(workers)), run_in_steps(text, budget, workers))
    tries = [(ran, difference(said, ran)) for ran in runs]
    checked = run_program(text, command="check")
    for ran, found in tries + [(checked, check_difference(text, checked))]:
        if found:
            print("wrong: %s: %r" % (name, text))
            print(found)
            answer = (ran.returncode, ran.stderr, ran.stdout)
            print("the program: status %d, notes %r, output %r" % answer)
            sys.exit(1)


def main():
    count = int(sys.argv[1]) if len(sys.argv) > 1 else 3000
    seed = int(sys.argv[2]) if len(sys.argv) > 2 else 1
    build = [TOP / "allsat", "enumerate"]
    subprocess.run(build, input=b"p cnf 0 0\n", stdout=subprocess.DEVNULL, check=True)
    for lines, _ in TABLE:
        try_text("a text of the table", text_of(lines), read(text_of(lines)), 1, 2)
    kinds = Counter()
    for place in range(1, count + 1):
        choose = random.Random("%d of seed %d" % (place, seed))
        text = random_text(choose)
        said = read(text)
        name = "text %d of seed %d" % (place, seed)
        try_text(name, text, said, choose.choice([1, 2, 3, 7]), choose.choice([2, 4]))
        kinds[said.name if isinstance(said, Refused) else None] += 1
    accepted = kinds.pop(None, 0)
    missing = [name for name in NOTED if name not in kinds]
    if count >= 300 and missing:
        print("wrong: no text of seed %d was refused as %s" % (seed, ", ".join(missing)))
        sys.exit(1)
    numbers = (count, accepted, count - accepted, len(kinds))
    print("right: %d random texts, %d accepted, %d refused (%d kinds)" % numbers)


if __name__ == "__main__":
    main()
