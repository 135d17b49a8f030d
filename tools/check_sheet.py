#!/usr/bin/env python3
"""Checks a refutation sheet against the clauses that it is said to refute.

  tools/check_sheet.py TEXT SHEET
  tools/check_sheet.py --lrat TEXT SHEET

TEXT is a clause text (DIMACS CNF, docs/CLAUSE-TEXT.md), SHEET a sheet
(docs/SHEET.md). Prints 'sound' if the sheet derives the empty clause from
clauses of the text: then no assignment meets them all. Else prints the first
line of the sheet that is at fault, counted from 1, and why: 'line 7: ...'.
With --lrat it prints, in place of 'sound', an LRAT proof for the text, up to
the first empty clause; what is at fault is then told on standard error.

Exit status: 0 sound; 1 not sound; 2 the text is at fault ('text: ...'), or a
file cannot be read, or the arguments are wrong.

Only Python's standard library is needed. A clause is a frozenset of numbers
here, the literals: v is true where variable v is, -v where it is false.
"""
import pathlib
import re
import sys

VARIABLES_MOST = 64

# Limits of a clause text.
TEXT_MOST = 1048576         # bytes
CLAUSES_MOST = 65536
LITERALS_MOST = 128         # of one clause, repeats counted

WORD = re.compile(rb'[^ \t\r\n]+')
TEXT_NUMBER = re.compile(rb'0|-?[1-9][0-9]{0,4}')

# Numbers of 15 digits at most: no file has lines enough for longer ones.
SHEET_LINE = re.compile(rb'(0|-?[1-9][0-9]{0,14})( (0|-?[1-9][0-9]{0,14}))*')


class Fault(Exception):
    """Where the text or the sheet is at fault, and why."""


def shown(clause):
    """A clause for print."""
    return '(%s)' % ' '.join(map(str, sorted(clause, key=abs)))


def contents(name, path):
    try:
        return pathlib.Path(path).read_bytes()
    except OSError as error:
        raise Fault(name, 'the file cannot be read: %s' % error.strerror) from None


# The text.

def words_of(text):
    """The words outside comments."""
    words, begun = [], False
    for line in text.split(b'\n'):
        if begun or not line.startswith(b'c'):
            found = WORD.findall(line)
            words += found
            begun = begun or b'p' in found
    return words


def text_number(word, least, most, what):
    if not TEXT_NUMBER.fullmatch(word) or not least <= int(word) <= most:
        raise Fault('text', '%s is not a number from %d to %d' % (what, least, most))
    return int(word)


def read_text(text):
    """The text's n, and its clauses in order."""
    words = words_of(text)
    if len(text) > TEXT_MOST:
        raise Fault('text', 'more than %d bytes' % TEXT_MOST)
    if len(words) < 4 or words[:2] != [b'p', b'cnf']:
        raise Fault('text', 'it does not begin with p cnf n m')
    n = text_number(words[2], 0, VARIABLES_MOST, 'n')
    m = text_number(words[3], 0, CLAUSES_MOST, 'm')
    clauses, literals = [], []
    for word in words[4:]:
        if len(clauses) == m:
            raise Fault('text', 'it goes on after its last clause, number %d' % m)
        literal = text_number(word, -n, n, 'a literal of clause %d' % (len(clauses) + 1))
        if literal != 0:
            literals.append(literal)
        else:
            clauses.append(frozenset(literals))
            literals = []
        if len(literals) > LITERALS_MOST:
            raise Fault('text', 'clause %d has more than %d literals' % (len(clauses) + 1, LITERALS_MOST))
    if literals or len(clauses) < m:
        raise Fault('text', 'it ends before clause %d of %d has ended' % (len(clauses) + 1, m))
    return n, clauses


# The sheet.

class Sheet:
    """A sheet as far as it is read. What is read is sound."""

    def __init__(self, data):
        self.lines = data.split(b'\n')      # the last piece is what follows the last LF
        self.at = 0                         # the line read last, counted from 1
        self.n = 0
        self.clauses = []                   # clause number k is clauses[k - 1]
        self.parents = []                   # the numbers that each was derived from
        self.numbers = {}                   # from each clause to its number

    def fault(self, why):
        return Fault('line %d' % self.at, why)

    def check(self, text_n, text_clauses):
        """Reads the whole sheet; the first fault ends it."""
        least, known = max(1, text_n), frozenset(text_clauses)
        self.n = self.count('n')
        if not least <= self.n <= VARIABLES_MOST:
            raise self.fault('n is not a number from %d to %d' % (least, VARIABLES_MOST))
        for _ in range(self.count('the count of given lines')):
            clause = self.clause(self.line('a given line'))
            if clause not in known:
                raise self.fault('%s is no clause of the text' % shown(clause))
            self.take(clause, [])
        for _ in range(self.count('the count of derived lines')):
            self.take(*self.derived(self.line('a derived line')))
        self.at += 1
        if self.at < len(self.lines) or self.lines[-1]:
            raise self.fault('the sheet goes on after its last derived line')
        if frozenset() not in self.numbers:
            raise self.fault('the sheet ends here, and no line is the empty clause')

    def line(self, what):
        """The numbers of the next line, which should be what is said."""
        line = self.lines[self.at]
        self.at += 1
        if self.at == len(self.lines):
            raise self.fault('no LF ends the line' if line else 'the sheet ends where %s should stand' % what)
        if not SHEET_LINE.fullmatch(line):
            raise self.fault('not just plain numbers, of at most 15 digits, with one space between them')
        return [int(word) for word in line.split(b' ')]

    def count(self, what):
        """The next line as one number, 0 or more."""
        numbers = self.line(what)
        if len(numbers) != 1 or numbers[0] < 0:
            raise self.fault('one number should stand here, %s' % what)
        return numbers[0]

    def clause(self, numbers):
        """Literals by rising variable and 0, as a clause."""
        *literals, end = numbers
        variables = [0] + [abs(literal) for literal in literals] + [self.n + 1]
        if end != 0:
            raise self.fault('no 0 ends the clause')
        if any(v >= w for v, w in zip(variables, variables[1:])):
            raise self.fault('the literals are not of variables 1 to %d, each once, rising' % self.n)
        return frozenset(literals)

    def derived(self, numbers):
        """The clause of a derived line, if it follows, and the numbers of its parents."""
        if numbers[0] > 0 and len(numbers) == 3:
            variable, *parents = numbers
            one, two = map(self.named, parents)
            clashes = sorted(abs(literal) for literal in one if -literal in two)
            if clashes != [variable]:
                told = ' '.join(map(str, clashes)) or 'no variable'
                raise self.fault('%s and %s clash in %s, not in %d alone' % (shown(one), shown(two), told, variable))
            return (one | two) - {variable, -variable}, parents
        if numbers[0] == 0 and len(numbers) >= 3:
            clause, parent = self.clause(numbers[2:]), numbers[1]
            lost = self.named(parent) - clause
            if lost:
                raise self.fault('%s lacks literals of number %d: %s' % (shown(clause), parent, shown(lost)))
            return clause, [parent]
        raise self.fault('neither v a b nor 0 a and a clause')

    def named(self, number):
        """The clause of this number."""
        if not 1 <= number <= len(self.clauses):
            raise self.fault('no line before this one has the number %d' % number)
        return self.clauses[number - 1]

    def take(self, clause, parents):
        """Gives the clause the next number."""
        if clause in self.numbers:
            raise self.fault('%s has the number %d already' % (shown(clause), self.numbers[clause]))
        self.clauses.append(clause)
        self.parents.append(parents)
        self.numbers[clause] = len(self.clauses)


def lrat(sheet, text_clauses):
    """The lines of an LRAT proof of the text, from a sound sheet.

    A given line is the text's first clause that equals it. A derived line is a
    new clause, and its parents are its hints: make all its literals false; then
    line a has one literal left, and with that true line b is false. The parent
    of a widened line is false at once.
    """
    ids, last, first = [], len(text_clauses), {}
    for k, clause in enumerate(text_clauses, 1):
        first.setdefault(clause, k)
    for clause, parents in zip(sheet.clauses, sheet.parents):
        hints = [ids[parent - 1] for parent in parents] or [first[clause]]
        if parents or not clause:       # an empty clause of the text is stated anew
            last += 1
            yield ' '.join(map(str, [last, *sorted(clause, key=abs), 0, *hints, 0]))
        if not clause:
            return
        ids.append(last if parents else hints[0])


def main(arguments):
    proof = arguments[:1] == ['--lrat']
    if len(arguments) != 2 + proof:
        print('usage: check_sheet.py [--lrat] TEXT SHEET', file=sys.stderr)
        return 2
    try:
        n, clauses = read_text(contents('text', arguments[-2]))
        sheet = Sheet(contents('sheet', arguments[-1]))
        sheet.check(n, clauses)
    except Fault as fault:
        where, why = fault.args
        print('%s: %s' % (where, why), file=sys.stderr if proof else sys.stdout)
        return 1 if where.startswith('line') else 2
    for line in lrat(sheet, clauses) if proof else ['sound']:
        print(line)
    return 0


if __name__ == '__main__':
    sys.exit(main(sys.argv[1:]))
