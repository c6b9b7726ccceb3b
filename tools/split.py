#!/usr/bin/env python3
"""Splits a stopped run into pieces that can be run anywhere.

    tools/split.py SAVED N FOLDER

SAVED is a saved text, as a run with --budget writes it. FOLDER, which is made, gets N texts, each with
the formula and a part of the open prefixes, and one text with the cubes that were found so far. Each
text is a saved text, and so an input of the program. tools/run_piece.py runs a piece, and
tools/join.py joins what came of them.

A prefix of length k leaves 2^(n - k) assignments of the n shown variables, which is its weight. A
prefix that weighs more than a piece's share is cut in two, by the lowest shown variable that it lacks,
and again until there are enough; then the heaviest goes to the lightest piece, one after another. What
a prefix weighs says nothing of how hard its search is: some more pieces than processors even it out.
"""
import heapq
import pathlib

from check_listing import key
from pieces import CONTENTS, CUBES, Unfit, bytes_of, contents_text, main_of, put, saved_in, saved_text, text_of

# A prefix is cut while it weighs more than this part of a piece's share.
PARTS_OF_A_SHARE = 4


def cut(prefix, shown):
    """The two prefixes that a prefix falls into, or none where it has all shown variables."""
    names = {abs(literal) for literal in prefix}
    variable = next((it for it in shown if it not in names), None)
    if variable is None:
        return []
    return [sorted([*prefix, literal], key=abs) for literal in (-variable, variable)]


def finely_cut(prefixes, shown, count):
    """The same prefixes, cut until none weighs more than a part of a share."""
    free = len(shown)
    total = sum(1 << (free - len(prefix)) for prefix in prefixes)
    most = max(1, total // (count * PARTS_OF_A_SHARE))
    fine, coarse = [], list(prefixes)
    while coarse:
        prefix = coarse.pop()
        if 1 << (free - len(prefix)) <= most:
            fine.append(prefix)
        else:
            coarse += cut(prefix, shown)
    return fine


def dealt(prefixes, count):
    """The prefixes in so many lists of nearly the same weight."""
    lists = [[] for _ in range(count)]
    lightest = [(0, place) for place in range(count)]
    longest = max((len(prefix) for prefix in prefixes), default=0)
    for prefix in sorted(prefixes, key=lambda it: (len(it), key(it))):
        weight, place = heapq.heappop(lightest)
        lists[place].append(prefix)
        heapq.heappush(lightest, (weight + (1 << (longest - len(prefix))), place))
    return [sorted(it, key=key) for it in lists]


def split(path, count, folder):
    formula = saved_in(path, bytes_of(path))
    folder = pathlib.Path(folder)
    try:
        folder.mkdir(parents=True)
    except OSError as error:
        raise Unfit(f"{folder}: {error.strerror}") from None
    prefixes = finely_cut(formula.saved.pending, formula.shown, count)
    texts = {CUBES: saved_text(formula, formula.saved.cubes, [])}
    for piece, part in enumerate(dealt(prefixes, count), 1):
        texts[text_of(piece)] = saved_text(formula, [], part)
    for name, text in texts.items():
        (folder / name).write_bytes(text)
    put(folder / CONTENTS, contents_text(texts))


def work(words):
    if len(words) != 3 or not words[1].isdecimal() or int(words[1]) == 0:
        return None
    split(words[0], int(words[1]), words[2])
    return 0


if __name__ == "__main__":
    main_of(work, __doc__)
