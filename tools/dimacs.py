#!/usr/bin/env python3
"""The checker's own reader of DIMACS CNF with projection lines, written from docs/FORMATS.md
("The input").

    tools/dimacs.py < TEXT

As a module, `read` answers what a text says: a Formula or a Refused. Run by itself, it prints
that for the text on its standard input: the numbers of variables, clauses and shown variables, or
the note of the refusal.
"""
import re
import sys
from collections import namedtuple

# The clauses are as written; the shown variables rise, and so do those of the given literals. What
# a saved text has besides is a Saved, two lists of cubes; of any other text it is None. What a met
# text has is a list of Met, a cube and hidden literals each; of any other text it is None.
Formula = namedtuple("Formula", "variables clauses shown under saved met")
Met = namedtuple("Met", "cube hidden")
Saved = namedtuple("Saved", "cubes pending")
Limits = namedtuple("Limits", "bytes variables clauses literals shown")

LIMITS = Limits(
    bytes=2**30,
    variables=1_000_000,
    clauses=4_000_000,
    literals=16_000_000,
    shown=8_192,
)
MOST_NAMED_VARIABLE = 1_000_000

NUMBERS = {
    "BadStart": 1,
    "BadHeader": 2,
    "HeaderTwice": 3,
    "NoHeader": 4,
    "BadNumber": 5,
    "VariableTooLarge": 6,
    "Unfinished": 7,
    "ClauseCount": 8,
    "ShowBad": 9,
    "ShowUnended": 10,
    "TooManyVariables": 11,
    "TooManyClauses": 12,
    "TooManyLiterals": 13,
    "TooManyShown": 14,
    "TextTooLong": 15,
    "SavedBad": 16,
    "SavedUnended": 17,
    "NoMetText": 19,
    "UnderBad": 21,
    "UnderUnended": 22,
}


class Refused(Exception):
    """A refusal: its name, its line, and for ClauseCount the numbers that were said and found."""

    def __init__(self, name, line, said=None, found=None):
        super().__init__(name, line, said, found)
        self.name, self.line, self.said, self.found = name, line, said, found

    def note(self):
        """The line that the program writes on standard error, without its line end."""
        note = "allsat: input refused: %d %s line %d" % (NUMBERS[self.name], self.name, self.line)
        return note if self.said is None else note + " said %d found %d" % (self.said, self.found)


def complete_lines(data):
    """The lines that byte 10 ends."""
    return data.split(b"\n")[:-1]


def all_lines(data):
    """The lines that byte 10 ends, and the bytes behind them as one more if there are any."""
    lines = data.split(b"\n")
    return lines if lines[-1] else lines[:-1]


def tokens_of(line):
    """The longest runs of bytes other than 9, 11, 12, 13 and 32."""
    return re.findall(rb"[^\x09\x0b\x0c\x0d\x20]+", line)


def number_of(token):
    """The value of a token, or None where it is no number.

    A value of more than 18 digits is above every limit, and only that counts of it: 10^18 stands
    for it.
    """
    form = re.fullmatch(rb"(-?)([0-9]+)", token)
    if not form:
        return None
    digits = form[2].lstrip(b"0")
    size = int(digits or b"0") if len(digits) <= 18 else 10**18
    if not form[1]:
        return size
    return -size if size else None


class Reader:
    """What the lines so far say."""

    def __init__(self, limits):
        self.limits = limits
        self.header = None  # the numbers of variables and of clauses that were said
        self.clauses = []
        self.clause = []  # the literals that stand behind the last 0
        self.literals = 0
        self.shows = []  # for each show line its number and its variables
        self.given = []  # the literals of the under lines, each with the number of its line
        self.ended = False  # whether a line that begins with % came
        self.saved = None  # of a saved text, its cube lines and open lines with their numbers
        self.met = None  # of a met text, its met lines with their numbers
        self.own_ended = False  # whether the end line of a saved or a met text came

    def line(self, number, line):
        """Reads a line, or raises its refusal."""
        tokens = tokens_of(line)
        if self.ended or not tokens:
            return
        first = tokens[0][:1]
        if first == b"c":
            self.comment_line(number, tokens)
        elif first == b"p":
            self.header_line(number, tokens)
        elif self.header is None:
            raise Refused("BadStart", number)
        elif first == b"%":
            self.ended = True
        else:
            for token in tokens:
                self.clause_token(number, token)

    def comment_line(self, number, tokens):
        words = tokens[:3]
        if words == [b"c", b"p", b"show"]:
            self.shows.append((number, self.list_line(number, tokens[3:], "Show", 0)))
        elif words == [b"c", b"p", b"under"]:
            values = self.list_line(number, tokens[3:], "Under", -MOST_NAMED_VARIABLE)
            self.given += [(number, value) for value in values]
        elif number == 1 and words == [b"c", b"allsat", b"met"]:
            if tokens[3:] != [b"1"]:
                raise Refused("SavedBad", 1)
            self.met = []
        elif number == 1 and words == [b"c", b"allsat", b"saved"]:
            if tokens[3:] not in ([b"1"], [b"2"]):
                raise Refused("SavedBad", 1)
            self.saved = Saved([], [])
        elif words[:2] == [b"c", b"p"] and words[2:] in self.own_words():
            self.own_line(number, words[2:], tokens[3:])

    def own_words(self):
        """The words of the lines that a text of this kind has of its own."""
        if self.saved is not None:
            return [[b"cube"], [b"open"], [b"end"]]
        return [] if self.met is None else [[b"met"], [b"end"]]

    def own_line(self, number, word, tokens):
        """A line that a saved text or a met text has of its own."""
        if self.own_ended or (word == [b"end"] and tokens):
            raise Refused("SavedBad", number)
        if word == [b"end"]:
            self.own_ended = True
        elif word == [b"met"]:
            zeros = [place for place, token in enumerate(tokens) if number_of(token) == 0]
            cut = zeros[0] + 1 if zeros else len(tokens)
            cube = self.rising_line(number, tokens[:cut])
            self.met.append((number, Met(cube, self.rising_line(number, tokens[cut:]))))
        else:
            kind = self.saved.cubes if word == [b"cube"] else self.saved.pending
            kind.append((number, self.rising_line(number, tokens)))

    def rising_line(self, number, tokens):
        """Literals whose variables rise, up to the 0 that ends the line."""
        literals = self.list_line(number, tokens, "Saved", -MOST_NAMED_VARIABLE, unended="Bad")
        variables = [abs(literal) for literal in literals]
        if any(before >= behind for before, behind in zip(variables, variables[1:])):
            raise Refused("SavedBad", number)
        return literals

    def header_line(self, number, tokens):
        if self.header is not None:
            raise Refused("HeaderTwice", number)
        if len(tokens) != 4 or tokens[:2] != [b"p", b"cnf"]:
            raise Refused("BadHeader", number)
        variables, clauses = number_of(tokens[2]), number_of(tokens[3])
        if variables is None or variables < 0 or clauses is None or clauses < 0:
            raise Refused("BadHeader", number)
        if variables > self.limits.variables:
            raise Refused("TooManyVariables", number)
        if clauses > self.limits.clauses:
            raise Refused("TooManyClauses", number)
        self.header = variables, clauses

    def clause_token(self, number, token):
        value = number_of(token)
        if value is None:
            raise Refused("BadNumber", number)
        if value == 0:
            if len(self.clauses) == self.limits.clauses:
                raise Refused("TooManyClauses", number)
            self.clauses.append(self.clause)
            self.clause = []
            return
        if abs(value) > self.header[0]:
            raise Refused("VariableTooLarge", number)
        if self.literals == self.limits.literals:
            raise Refused("TooManyLiterals", number)
        self.literals += 1
        self.clause.append(value)

    def list_line(self, number, tokens, kind, least, unended="Unended"):
        """The values up to the 0 that ends the line, none of them below the least."""
        values = []
        for place, token in enumerate(tokens):
            value = number_of(token)
            if value is None or value < least or value > MOST_NAMED_VARIABLE:
                raise Refused(kind + "Bad", number)
            if value == 0:
                if place + 1 < len(tokens):
                    raise Refused(kind + "Bad", number)
                return values
            values.append(value)
        raise Refused(kind + unended, number)

    def under(self, shown):
        """The cube of the given literals, or raises the refusal of the first that is misplaced."""
        shown, under = set(shown), set()
        for number, literal in self.given:
            if abs(literal) not in shown or -literal in under:
                raise Refused("UnderBad", number)
            under.add(literal)
        return sorted(under, key=abs)

    def saved_cubes(self, shown, under):
        """What a saved text has besides, or raises the refusal of its lowest line that is not over
        the shown variables, or lacks a given literal."""
        if self.saved is None:
            return None
        shown, under = set(shown), set(under)
        for number, literals in sorted(self.saved.cubes + self.saved.pending):
            if not {abs(literal) for literal in literals} <= shown or not under <= set(literals):
                raise Refused("SavedBad", number)
        return Saved(*([literals for _, literals in lines] for lines in self.saved))

    def met_cubes(self, variables, shown, under):
        """What a met text has besides, or raises the refusal of its lowest line whose cube is not
        over the shown variables, or lacks a given literal, or has no hidden literals with it."""
        if self.met is None:
            return None
        shown, under = set(shown), set(under)
        for number, met in self.met:
            hidden = {abs(literal) for literal in met.hidden}
            named = {abs(literal) for literal in met.cube} <= shown and under <= set(met.cube)
            if not named or hidden & shown or any(name > variables for name in hidden):
                raise Refused("SavedBad", number)
        return [met for _, met in self.met]

    def end(self, last):
        """The formula, after a last line with this number; or raises the refusal of the end."""
        if self.header is None:
            raise Refused("NoHeader", last)
        if self.clause:
            raise Refused("Unfinished", last)
        if (self.saved, self.met) != (None, None) and not self.own_ended:
            raise Refused("SavedUnended", last)
        variables, said = self.header
        if len(self.clauses) != said:
            raise Refused("ClauseCount", last, said, len(self.clauses))
        for number, shown in self.shows:
            if any(variable > variables for variable in shown):
                raise Refused("ShowBad", number)
        shown = range(1, variables + 1)
        if self.shows:
            shown = sorted({variable for _, names in self.shows for variable in names})
        if len(shown) > self.limits.shown:
            raise Refused("TooManyShown", last)
        under = self.under(shown)
        saved = self.saved_cubes(shown, under)
        met = self.met_cubes(variables, shown, under)
        return Formula(variables, self.clauses, list(shown), under, saved, met)


def read_or_raise(data, limits):
    reader = Reader(limits)
    if len(data) > limits.bytes:
        lines = complete_lines(data[: limits.bytes])
        for number, line in enumerate(lines, 1):
            reader.line(number, line)
        raise Refused("TextTooLong", len(lines) + 1)
    lines = all_lines(data)
    for number, line in enumerate(lines, 1):
        reader.line(number, line)
    return reader.end(max(len(lines), 1))


def read(data, limits=LIMITS):
    """What the bytes say: a Formula or a Refused."""
    try:
        return read_or_raise(data, limits)
    except Refused as refused:
        return refused


def main():
    said = read(sys.stdin.buffer.read())
    if isinstance(said, Refused):
        print(said.note())
        sys.exit(1)
    numbers = (said.variables, len(said.clauses), len(said.shown))
    print("a formula: %d variables, %d clauses, %d shown" % numbers)


if __name__ == "__main__":
    main()
