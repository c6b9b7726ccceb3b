#!/usr/bin/env python3
"""Runs each command of README.md that calls ./allsat, as it is written there, and compares.

A command is an indented line with `./allsat` in it; what README shows of its output is the next
indented block, if it begins as an output does. A saved text goes with status 3, all else with 0.
A listing that README does not show is checked by tools/check_listing.py, where the command reads a
file of examples/.
Run it at the top: tools/readme.py [README.md]. Each wrong command is a line; the status is 1 then.
"""

import re
import subprocess
import sys


def commands(lines):
    """Pairs of a command and the lines that README shows of its output, or None where it shows none."""
    for place, line in enumerate(lines):
        if not line.startswith('    ') or './allsat' not in line:
            continue
        shown = []
        for later in lines[place + 1:]:
            if re.match(r'    [vfs] |    c allsat saved ', later) or (shown and later.startswith('    ')):
                shown.append(later.strip())
            elif shown or later.strip():
                break
        yield line.split('  #')[0].strip(), shown or None


def run(command):
    return subprocess.run(['sh', '-c', command], capture_output=True, text=True, check=False)


def wrong_with(command, shown):
    """What is wrong with a command, or None."""
    ran = run(command)
    wanted = 3 if shown and shown[0].startswith('c allsat saved') else 0
    if ran.returncode != wanted:
        return f'status {ran.returncode}: {ran.stderr.strip()}'
    if shown is not None:
        return None if ran.stdout.split('\n')[:-1] == shown else f'it prints {ran.stdout!r}'
    formula = re.search(r'< (examples/\S+)', command)
    if formula is None:
        return 'README shows no output, and no example is read'
    checked = subprocess.run(['tools/check_listing.py', formula.group(1)], input=ran.stdout,
                             capture_output=True, text=True, check=False)
    return None if checked.returncode == 0 else checked.stdout.strip()


def main():
    name = sys.argv[1] if len(sys.argv) > 1 else 'README.md'
    with open(name, encoding='utf-8') as readme:
        found = list(commands(readme.read().split('\n')))
    wrong = 0
    for command, shown in found:
        why = wrong_with(command, shown)
        if why is not None:
            print(f'wrong: README, {command}: {why}')
            wrong = 1
    if not found:
        print('wrong: README has no command')
        wrong = 1
    if not wrong:
        print(f'right: the {len(found)} commands of README print what it shows')
    return wrong


if __name__ == '__main__':
    sys.exit(main())
