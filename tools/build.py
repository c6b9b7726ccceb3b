#!/usr/bin/env python3
"""Builds the program: tools/build.py PROGRAM puts it at this path.

Everything is proved before it is compiled. Crates that do not stand on each other are proved at the same
time, by all processors: each in a folder of its own, beside the libraries of those below it, since two calls
of `rt` wait for each other where they share a crate's folder. Each proof has one job, which leaves the other
processors to other proofs; where all else waits for it, it has a job for each processor that is left. Standard
error gets a line for each crate as it is begun, and the path of the log where something fails. While one call
builds, a second one waits for it.
"""
import fcntl
import os
import pathlib
import re
import shutil
import subprocess
import sys
import time
from concurrent.futures import FIRST_COMPLETED, ThreadPoolExecutor, wait

ROOT = pathlib.Path(__file__).resolve().parent.parent
CLI = "allsat_cli"
# What a proof may take, in bytes, so that no more run at a time than memory holds.
MEMORY_OF_A_CHECK = 2_500_000_000
SOURCES = (".rt", ".antt")
PARTS = ("src", "specs", "proofs")


def say(text):
    print(f"allsat: {text}", file=sys.stderr, flush=True)


def crate_lines():
    """The lines of crates.txt by the crate's name, and the names behind each colon."""
    lines, below = {}, {}
    for line in (ROOT / "crates.txt").read_text(encoding="utf-8").splitlines():
        head, colon, rest = line.partition("#")[0].partition(":")
        if colon:
            name = head.split()[0]
            lines[name], below[name] = line, rest.split()
    return lines, below


def needed(below):
    """The crates of the program, the lowest first."""
    order = []

    def visit(name):
        if name in below and name not in order:
            for other in below[name]:
                visit(other)
            order.append(name)

    visit(CLI)
    return order


def processors():
    found = len(os.sched_getaffinity(0))
    memory = re.search(r"MemAvailable:\s+(\d+)", pathlib.Path("/proc/meminfo").read_text(encoding="utf-8"))
    return max(1, min(found, int(memory[1]) * 1024 // MEMORY_OF_A_CHECK)) if memory else found


def sources(names):
    files = [ROOT / "crates.txt"]
    for name in names:
        for part in PARTS:
            files += (it for it in (ROOT / "crates" / name / part).rglob("*") if it.is_file())
    return files


def is_fresh(program, names):
    if not program.exists():
        return False
    made = program.stat().st_mtime_ns
    return all(it.stat().st_mtime_ns <= made for it in sources(names))


def crates_under(names, below):
    """For each crate all those below it."""
    under = {}
    for name in names:
        here = [it for it in below[name] if it in under]
        under[name] = set(here).union(*(under[it] for it in here))
    return under


def link_or_copy(file, to):
    try:
        os.link(file, to)
    except OSError:
        shutil.copy2(file, to)


def weights_of_chains(names, below):
    """For each crate its bytes of sources and those of the heaviest chain of crates that stand on it."""
    weights = {}
    for name in reversed(names):
        bytes_here = sum(it.stat().st_size for it in (ROOT / "crates" / name).rglob("*") if it.suffix in SOURCES)
        behind = (weights[it] for it in weights if name in below[it])
        weights[name] = bytes_here + max(behind, default=0)
    return weights


class Place:
    """Where the crates are proved: for each a folder `NAME/crates` with copies of it and of those below it."""

    def __init__(self, top, below, lines, log):
        self.top, self.lines, self.log = top, lines, log
        self.under = crates_under(needed(below), below)

    def crate(self, name):
        return self.top / name / "crates" / name

    def lay_out(self, name):
        """Copies the sources of the crate, and what stands of those below it. What earlier builds kept of it
        stays."""
        for part in PARTS:
            shutil.rmtree(self.crate(name) / part, ignore_errors=True)
            if (ROOT / "crates" / name / part).is_dir():
                shutil.copytree(ROOT / "crates" / name / part, self.crate(name) / part)
        for other in self.under[name]:
            here = self.top / name / "crates" / other
            shutil.rmtree(here, ignore_errors=True)
            for part in (*PARTS, "out/rlib"):
                if (self.crate(other) / part).is_dir():
                    shutil.copytree(self.crate(other) / part, here / part, copy_function=link_or_copy)
        lines = [self.lines[it] for it in (*self.under[name], name)]
        (self.top / name / "crates.txt").write_text("\n".join(lines) + "\n", encoding="utf-8")

    def prove(self, name, jobs):
        """Proves a crate by so many jobs, over those below it, and leaves its library; the program is compiled
        and run once. Answers whether it is proved."""
        self.lay_out(name)
        command = ["run", "--jobs", str(jobs), "--", "enumerate"] if name == CLI else ["lib", "--jobs", str(jobs)]
        run = subprocess.run(
            ["rt", *command], cwd=self.crate(name), input="p cnf 0 0\n",
            stdout=subprocess.PIPE, stderr=subprocess.STDOUT, text=True, check=False
        )
        self.log.write(f"== {name}\n{run.stdout}")
        self.log.flush()
        return run.returncode == 0


def prove_all(place, names, below):
    """Proves the crates side by side, each once those below it are, and first those on which the heaviest
    chains stand. Says which is begun and how many are left. Answers whether all are proved."""
    weights, free = weights_of_chains(names, below), processors()
    waiting, running, proved = sorted(names, key=lambda name: -weights[name]), {}, set()
    with ThreadPoolExecutor(free) as pool:
        while len(proved) < len(names):
            ready = [it for it in waiting if proved.issuperset(place.under[it])]
            for name in ready[:free]:
                waiting.remove(name)
                jobs = free if all(name in place.under[it] for it in waiting) else 1
                say(f"proving {name}; {len(names) - len(proved)} of {len(names)} crates are left")
                running[pool.submit(place.prove, name, jobs)] = name, jobs
                free -= jobs
            for done in wait(running, return_when=FIRST_COMPLETED).done:
                name, jobs = running.pop(done)
                free += jobs
                if not done.result():
                    say(f"{name} is not proved; waiting for what else was begun")
                    return False
                proved.add(name)
    return True


def build(program):
    lines, below = crate_lines()
    names = needed(below)
    top = program.parent
    top.mkdir(parents=True, exist_ok=True)
    with open(top / "lock", "w", encoding="utf-8") as lock:
        try:
            fcntl.flock(lock, fcntl.LOCK_EX | fcntl.LOCK_NB)
        except BlockingIOError:
            say("waiting for another call that builds the program")
            fcntl.flock(lock, fcntl.LOCK_EX)
        if is_fresh(program, names):
            return True
        say(f"building the program: {len(names)} crates, each proved before it is compiled")
        begun = time.time_ns()
        with open(top / "build.log", "w", encoding="utf-8") as log:
            place = Place(top / "crates", below, lines, log)
            if not prove_all(place, names, below):
                return False
        new = top / "new"
        shutil.copy(place.crate(CLI) / "out" / CLI, new)
        # A source that was changed meanwhile is newer than the program.
        os.utime(new, ns=(begun, begun))
        os.replace(new, program)
    return True


def main():
    if len(sys.argv) != 2:
        print(__doc__.splitlines()[0], file=sys.stderr)
        return 2
    program = pathlib.Path(sys.argv[1])
    if build(program):
        return 0
    say(f"the program could not be built: see {program.parent / 'build.log'}")
    return 1


if __name__ == "__main__":
    sys.exit(main())
