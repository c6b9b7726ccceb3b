#!/usr/bin/env python3
"""Times the program's reading and writing beside `cat` on the same bytes.

    bench/reading_and_writing.py [ROUNDS [FOLDER]]

It makes its files, about 300 MB, in a folder of its own that is taken away at the end (in FOLDER,
or where temporary files stand here). Each round runs each row once, five rounds where nothing
else is said, so that other work on the machine falls on all rows alike. The rows:

  clauses    4,000,000 clauses of three literals. The header says one clause less, so that the
             whole text is read, the whole formula is kept, and the answer is a refusal: nothing
             is searched.
  comments   as many bytes of comment lines before a formula of one clause.
  short      a listing of many cubes: pairs of variables of which just one is true, and nothing
             else.
  long       a listing of fewer cubes that are long: pairs as before, and some thousand variables
             that unit clauses fix.

A listing is written when the search is over. Its row `to /dev/full` ends at the first write, so
it is the time of the search alone; what the other rows take beyond it is the writing.
Status, notes and listing are compared with what they have to be, in each run. Printed are
megabytes (10^6 bytes), the best and the median time in seconds, megabytes per second at the best
time, the best time on the processor, the greatest memory, and the slowest time over the best; and
how busy the machine was. A memory below that of the row `true`, which does nothing, can't be
told.
"""
import filecmp
import multiprocessing
import os
import random
import shutil
import statistics
import subprocess
import sys
import tempfile
import time
from collections import namedtuple
from itertools import product
from pathlib import Path

TOP = Path(__file__).resolve().parent.parent
PROGRAM = str(TOP / "crates" / "allsat_cli" / "out" / "build" / "allsat")
WORDS = [PROGRAM, "enumerate"]

CLAUSES = 4_000_000
BLOCK = 100_000  # lines that are made at random and written again and again
COMMENT_BYTES = 100_000_000
SHORT = (19, 0)  # pairs, fixed variables
LONG = (11, 4_074)

COUNT_NOTE = b"allsat: input refused: 8 ClauseCount line %d said %d found %d\n" % (
    CLAUSES + 1,
    CLAUSES - 1,
    CLAUSES,
)
FAULT_NOTE = b"allsat: write fault\n"

# A row: what is run, on which input, to which output; the status and the notes that it ends with;
# the megabytes that count; and a file of what the output has to be, or None.
Row = namedtuple("Row", "name words input output status notes megabytes listing")
Run = namedtuple("Run", "seconds processor memory")


def make_clauses(path):
    """A text of 4,000,000 clauses, whose header says one less."""
    choose = random.Random(1)
    lines = []
    for _ in range(BLOCK):
        literals = [choose.choice((1, -1)) * choose.randint(1, 1_000_000) for _ in range(3)]
        lines.append("%d %d %d 0\n" % tuple(literals))
    block = "".join(lines).encode()
    with open(path, "wb") as file:
        file.write(b"p cnf 1000000 %d\n" % (CLAUSES - 1))
        for _ in range(CLAUSES // BLOCK):
            file.write(block)


def make_comments(path):
    """A text of comment lines of all lengths up to 120 bytes, and a formula of one clause."""
    choose = random.Random(1)
    letters = "abcdefghijklmnopqrstuvwxyz  0123456789 .,"
    lines = []
    for _ in range(BLOCK // 5):
        lines.append("c " + "".join(choose.choices(letters, k=choose.randint(0, 117))) + "\n")
    block = "".join(lines).encode()
    with open(path, "wb") as file:
        for _ in range(COMMENT_BYTES // len(block) + 1):
            file.write(block)
        file.write(b"p cnf 2 1\n1 2 0\n")


def make_pairs(path, pairs, fixed):
    """A text of pairs of variables, just one true of each, and of false variables above them."""
    clauses = []
    for first in range(1, 2 * pairs, 2):
        clauses += ["%d %d 0" % (first, first + 1), "-%d -%d 0" % (first, first + 1)]
    clauses += ["-%d 0" % (2 * pairs + place) for place in range(1, fixed + 1)]
    header = "p cnf %d %d\n" % (2 * pairs + fixed, len(clauses))
    path.write_bytes((header + "\n".join(clauses) + "\n").encode())


def make_listing(path, pairs, fixed):
    """The listing of this formula."""
    names = [(first, first + 1) for first in range(1, 2 * pairs, 2)]
    sides = [("-%d %d " % pair, "%d -%d " % pair) for pair in names]
    tail = "".join("-%d " % (2 * pairs + place) for place in range(1, fixed + 1)) + "0\n"
    with open(path, "w", newline="") as file:
        for choice in product(*sides):
            file.write("v " + "".join(choice) + tail)
        file.write("s ALL\n")


def make_files(folder):
    make_clauses(folder / "clauses.cnf")
    make_comments(folder / "comments.cnf")
    for name, shape in (("short", SHORT), ("long", LONG)):
        make_pairs(folder / (name + ".cnf"), *shape)
        make_listing(folder / (name + ".listing"), *shape)
    (folder / "clauses.listing").write_bytes(b"")
    (folder / "comments.listing").write_bytes(b"v -1 2 0\nv 1 0\ns ALL\n")


def rows_of(folder):
    """The rows, in the order in which they are run and printed."""
    cat, out = ["cat"], folder / "out"
    null, full = Path("/dev/null"), Path("/dev/full")
    rows = [Row("true", ["true"], null, null, 0, b"", 0, None)]
    for name, status, notes in (("clauses", 2, COUNT_NOTE), ("comments", 0, b"")):
        text, listing = folder / (name + ".cnf"), folder / (name + ".listing")
        size = text.stat().st_size / 1e6
        what = "reading %s: " % name
        rows.append(Row(what + "cat", cat, text, null, 0, b"", size, None))
        rows.append(Row(what + "allsat", WORDS, text, out, status, notes, size, listing))
    for name in ("short", "long"):
        text, listing = folder / (name + ".cnf"), folder / (name + ".listing")
        size = listing.stat().st_size / 1e6
        what = "writing %s: " % name
        rows.append(Row(what + "cat to /dev/null", cat, listing, null, 0, b"", size, None))
        rows.append(Row(what + "cat to a file", cat, listing, out, 0, b"", size, None))
        if full.exists():
            search = Row(what + "allsat to /dev/full", WORDS, text, full, 6, FAULT_NOTE, 0, None)
            rows.append(search)
        rows.append(Row(what + "allsat to /dev/null", WORDS, text, null, 0, b"", size, None))
        rows.append(Row(what + "allsat to a file", WORDS, text, out, 0, b"", size, listing))
    return rows


def run(row, folder):
    """Runs the row once, and ends the script where it does otherwise than it has to."""
    notes = folder / "notes"
    with row.input.open("rb") as source, row.output.open("wb") as sink, notes.open("wb") as errors:
        start = time.monotonic()
        process = subprocess.Popen(row.words, stdin=source, stdout=sink, stderr=errors)
        _, status, usage = os.wait4(process.pid, 0)
        seconds = time.monotonic() - start
        process.returncode = os.waitstatus_to_exitcode(status)
    found = process.returncode, notes.read_bytes()
    if found != (row.status, row.notes):
        sys.exit("wrong: %s: status %d, notes %r" % (row.name, *found))
    if row.listing and not filecmp.cmp(row.output, row.listing, shallow=False):
        sys.exit("wrong: %s: another listing" % row.name)
    return Run(seconds, usage.ru_utime + usage.ru_stime, usage.ru_maxrss * 1024 / 1e6)


def best(runs):
    return min(one.seconds for one in runs)


def processor(runs):
    return min(one.processor for one in runs)


def print_table(rows, runs):
    heads = ("row", "MB", "best", "median", "MB/s", "processor", "memory", "spread")
    print("%-34s %7s %7s %7s %7s %9s %8s %7s" % heads)
    for row in rows:
        found = runs[row.name]
        middle = statistics.median(one.seconds for one in found)
        memory = max(one.memory for one in found)
        spread = max(one.seconds for one in found) / best(found)
        speed = "%7.0f" % (row.megabytes / best(found)) if row.megabytes else "      -"
        numbers = (middle, speed, processor(found), memory, spread)
        print("%-34s %7.1f %7.3f" % (row.name, row.megabytes, best(found)), end=" ")
        print("%7.3f %s %9.3f %8.1f %7.2f" % numbers)


def print_writing(rows, runs):
    """What each listing took beyond its search, on the processor."""
    for row in rows:
        search = row.name.partition(" to ")[0] + " to /dev/full"
        if row.words == WORDS and row.megabytes and search in runs:
            seconds = processor(runs[row.name]) - processor(runs[search])
            speed = row.megabytes / max(seconds, 0.001)
            print("%s without the search: %.3f s, %.0f MB/s" % (row.name, seconds, speed))


def main():
    rounds = int(sys.argv[1]) if len(sys.argv) > 1 else 5
    build = [TOP / "allsat", "enumerate"]
    subprocess.run(build, input=b"p cnf 0 0\n", stdout=subprocess.DEVNULL, check=True)
    load = os.getloadavg()[0]
    folder = Path(tempfile.mkdtemp(dir=sys.argv[2] if len(sys.argv) > 2 else None))
    try:
        # In a process of its own: a child's memory is counted from that of the script.
        maker = multiprocessing.Process(target=make_files, args=(folder,))
        maker.start()
        maker.join()
        rows = rows_of(folder)
        runs = {row.name: [] for row in rows}
        for _ in range(rounds):
            for row in rows:
                runs[row.name].append(run(row, folder))
        print_table(rows, runs)
        print_writing(rows, runs)
        print("load on %d processors: %.1f, then %.1f" % (os.cpu_count(), load, os.getloadavg()[0]))
    finally:
        shutil.rmtree(folder)


if __name__ == "__main__":
    main()
