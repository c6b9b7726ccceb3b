#!/usr/bin/env python3
"""Runs the gate's `rt ci` and tells what each crate costs it, in processor seconds.

    tools/gate_costs.py [NAME..] > costs.md

looks once a second at the processes below `rt ci` and adds up what each used: the proof of a
crate, of its tests, and the tries of its edits. What an earlier run on this machine kept costs
nothing, so run it where nothing is kept. The table is printed at the end, the gate's own output
goes to standard error. A process that ends between two looks is counted up to the last one.
"""

import collections
import os
import re
import subprocess
import sys
import time

TICKS = os.sysconf('SC_CLK_TCK')
KINDS = ('proof', 'tests', 'edits')


def processes():
    """For each process: its number, that of its parent, and the seconds that it used."""
    for name in filter(str.isdigit, os.listdir('/proc')):
        try:
            with open(f'/proc/{name}/stat', encoding='utf-8', errors='replace') as stat:
                fields = stat.read().rpartition(')')[2].split()
        except OSError:
            continue
        yield int(name), int(fields[1]), (int(fields[11]) + int(fields[12])) / TICKS


def crate_and_kind(process):
    """What a process works at, or None where it proves nothing."""
    try:
        with open(f'/proc/{process}/cmdline', encoding='utf-8', errors='replace') as text:
            words = text.read().split('\0')
        place = os.readlink(f'/proc/{process}/cwd')
    except OSError:
        return None
    if '--crate-name' not in words:
        return None
    crate = words[words.index('--crate-name') + 1]
    if '/rt-edit-' in place:
        return crate, 'edits'
    is_test = '--test' in words or crate.endswith('_tests') or '/tests' in place
    return re.sub('_tests$', '', crate), 'tests' if is_test else 'proof'


def look(top, used):
    """Notes what each process below the top one has used so far."""
    table = {process: (parent, seconds) for process, parent, seconds in processes()}
    for process, (_, seconds) in table.items():
        above = process
        while above in table and above != top:
            above = table[above][0]
        if above == top:
            what = crate_and_kind(process)
            if what is not None:
                used[process, what] = seconds


def print_table(used, wall):
    """The table, dearest crate first."""
    sums = collections.Counter()
    for (_, what), seconds in used.items():
        sums[what] += seconds
    crates = {crate for crate, _ in sums}
    total = {crate: sum(sums[crate, kind] for kind in KINDS) for crate in crates}
    print('| crate | proof | tests | edits | sum |')
    print('|---|---|---|---|---|')
    for crate in sorted(crates, key=lambda name: (-total[name], name)):
        parts = ' | '.join(f'{sums[crate, kind]:.0f}' for kind in KINDS)
        print(f'| {crate} | {parts} | {total[crate]:.0f} |')
    parts = ' | '.join(f'{sum(sums[crate, kind] for crate in crates):.0f}' for kind in KINDS)
    print(f'| all | {parts} | {sum(total.values()):.0f} |')
    print(f'\nby the clock: {wall:.0f} seconds')


def main():
    start = time.monotonic()
    used = {}
    with subprocess.Popen(['rt', 'ci', *sys.argv[1:]], stdout=sys.stderr) as gate:
        while gate.poll() is None:
            look(gate.pid, used)
            time.sleep(1)
    print_table(used, time.monotonic() - start)
    return gate.returncode


if __name__ == '__main__':
    sys.exit(main())
