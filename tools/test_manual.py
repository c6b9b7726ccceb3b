#!/usr/bin/env python3
"""Compares docs/allsat.1 with docs/FORMATS.md: the commands, their options, and the statuses.

Run it at the top. Each difference is a line; the status is 1 then.
"""

import re
import sys


def read(name):
    with open(name, encoding='utf-8') as text:
        return text.read()


def manual_entries(manual, section):
    """Pairs of the bold word and the text of each entry in a section of the man page."""
    body = re.search(rf'^\.SH {section}\n(.*?)^\.SH ', manual, re.M | re.S).group(1)
    return re.findall(r'^\.TP\n\.B (.+)\n(.+)$', body, re.M)


def words_of(text):
    """The commands and options that a text names."""
    return set(re.findall(r'\b(?:enumerate|check|drill)\b', text)) | set(re.findall(r'--[a-z]+', text))


def main():
    manual, formats = read('docs/allsat.1'), read('docs/FORMATS.md')
    said = set(manual_entries(manual, 'EXIT STATUS'))
    table = formats[formats.index('## Statuses and notes'):]
    wanted = set(re.findall(r'^\| (\d+) \| ([^|]+?) \|', table, re.M))
    wrong = [f'status {code}, "{when}", stands in one of the two alone' for code, when in said ^ wanted]
    described = formats[formats.index('## The words'):formats.index('## The input')]
    commands = words_of(' '.join(word.replace('\\-', '-') for word, _ in manual_entries(manual, 'COMMANDS')))
    wrong += [f'the word {word} stands in one of the two alone' for word in commands ^ words_of(described)]
    if not said or not commands:
        wrong.append('no status or no command was found')
    for line in wrong:
        print(f'wrong: docs/allsat.1 and docs/FORMATS.md: {line}')
    if not wrong:
        print(f'right: the manual has the {len(commands)} commands and options and the {len(said)} statuses of FORMATS.md')
    return 1 if wrong else 0


if __name__ == '__main__':
    sys.exit(main())
