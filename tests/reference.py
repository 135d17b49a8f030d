#!/usr/bin/env python3
"""A second, independent solver, compared with the program byte for byte.

  tests/reference.py [PROGRAM] [COUNT] [SEED]

makes COUNT random clause texts (default 3000), gives each to PROGRAM (default
crates/solve/out/solve) on standard input, and compares the whole output and
the exit status with what the solver below works out from the same text. Each
difference is printed. The last three lines tell how many steps of each kind
the reference made, how many answers of each kind it gave, and
'N texts, M differences'. The exit status is 1 if there was a difference.

The reference covers the clause text with all its refusals, the book, the five
kinds of step, the looks before a step, longest first, and the printed answer.
It shares no code and no structure with the program: clauses are whole numbers
used as bit masks, ranks are plain big numbers, words come from a regular
expression, and the row of every neighbour is counted afresh.

What it does not show. It was written from the same rules by people of the
same project: it finds slips of the code and of the definitions, not a rule
that both sides misread. Texts are drawn at random and mostly small, so rare
paths may go unvisited. Under longest first neither a sweep nor a reading off
ever falls due: in a book where nothing is left to flip, learn or bar, the
empty line stands already. Those two steps are here, but this comparison does
not reach them. No text it draws uses up the budget either. The only bytes
compared are those of the printed answer, so the derived lines and the number
of steps are seen only through it.
"""
import collections
import itertools
import random
import re
import subprocess
import sys

TEXT_MOST = 65536       # bytes the program reads
PLACES = 1000           # places of the program's book
BUDGET = 100000         # steps of the program's run
VARIABLES_MOST = 64
CLAUSES_MOST = 65536    # clauses a problem line may announce
LITERALS_MOST = 128     # literals of one clause, repeats counted

WORD = re.compile(rb'[^ \t\r\n]+')
NUMBER = re.compile(rb'0|-?[1-9][0-9]{0,4}')


# The clause text.

class Refused(Exception):
    """A refusal: its number and the byte place."""

    def __init__(self, number, place):
        super().__init__(number, place)
        self.number = number
        self.place = place


def uncommented(text):
    """The text with spaces in place of its comments; all places stay."""
    lines = text.split(b'\n')
    for k, line in enumerate(lines):
        if line.startswith(b'c'):
            lines[k] = b' ' * len(line)
        elif b'p' in WORD.findall(line):
            break
    return b'\n'.join(lines)


def words_of(text):
    """Pairs of place and word, in order."""
    return ((found.start(), found.group()) for found in WORD.finditer(uncommented(text)))


def size_word(words, end, most):
    """The next word as n or m of the problem line."""
    place, word = next(words, (end, b''))
    if not NUMBER.fullmatch(word) or word.startswith(b'-'):
        raise Refused(10, place)
    if int(word) > most:
        raise Refused(11, place)
    return int(word)


def problem_line(words, end, variables_most):
    """Reads p, cnf, n and m; gives n and m."""
    for wanted in (b'p', b'cnf'):
        place, word = next(words, (end, b''))
        if word != wanted:
            raise Refused(10, place)
    n = size_word(words, end, variables_most)
    return n, size_word(words, end, CLAUSES_MOST)


def literal(place, word, n, before):
    """The word as a number of a clause with so many literals before it."""
    if not NUMBER.fullmatch(word):
        raise Refused(12, place)
    number = int(word)
    if abs(number) > n:
        raise Refused(13, place)
    if number != 0 and before == LITERALS_MOST:
        raise Refused(6, place)
    return number


def clauses_of(text, variables_most):
    """Each clause, when its ending 0 is read, with the place of that 0."""
    words = words_of(text)
    n, m = problem_line(words, len(text), variables_most)
    ended, clause = 0, []
    while ended < m:
        place, word = next(words, (len(text), None))
        if word is None:
            raise Refused(14 if clause else 16, place)
        number = literal(place, word, n, len(clause))
        if number != 0:
            clause.append(number)
            continue
        yield clause, place
        ended, clause = ended + 1, []
    for place, _ in words:
        raise Refused(15, place)


def head(text):
    """n and m of the text."""
    return problem_line(words_of(text), len(text), VARIABLES_MOST)


# Clauses as masks: bit 2v - 2 is the literal v, bit 2v - 1 the literal -v.

POSITIVE = int('01' * VARIABLES_MOST, 2)


def bit(number):
    """The mask of one literal."""
    return 1 << (2 * number - 2 if number > 0 else -2 * number - 1)


def mask_of(numbers):
    """The mask of a clause."""
    mask = 0
    for number in numbers:
        mask |= bit(number)
    return mask


def turned(mask):
    """The same variables with every sign changed."""
    return (mask & POSITIVE) << 1 | mask >> 1 & POSITIVE


def literals_of(mask):
    """The literals as signed numbers, variables rising."""
    found = []
    while mask:
        lowest = mask & -mask
        v, negative = divmod(lowest.bit_length() - 1, 2)
        found.append(-v - 1 if negative else v + 1)
        mask ^= lowest
    return found


def once(mask):
    """Whether the mask holds just one literal."""
    return mask != 0 and mask & mask - 1 == 0


# Guides: a rank for each row of 65 counts.

POWERS = [65537 ** k for k in range(65)]


def longest_first(row):
    """The more long broken lines, the higher the rank."""
    return sum([count * power for count, power in zip(row, POWERS) if count])


class NoPlace(Exception):
    """A line was due and the book has no free place."""


Origin = collections.namedtuple('Origin', 'kind variable first second')


class Solver:
    """A book and an assignment, with the search that works on them.

    A valuation is the mask of the literals that it makes false. Where a
    variable is unset, neither of its literals is in the mask.
    """

    def __init__(self, places):
        self.places = places
        self.n = 0
        self.false = 0              # the assignment
        self.lines = []             # masks, oldest first
        self.lengths = []
        self.origins = []
        self.numbers = {}           # from a mask to its line number
        self.made = collections.Counter()

    def open(self, n, start):
        self.n = n
        self.restart(start)

    def restart(self, start):
        """Takes the start's bits, the lowest for variable 1."""
        self.false = mask_of(-v if start >> v - 1 & 1 else v for v in range(1, self.n + 1))

    def values(self):
        """The literals that are true now, variables rising."""
        return literals_of(turned(self.false))

    # The book.

    def write(self, clause, kind, variable=0, first=0, second=0):
        """Writes a line; gives its number."""
        if len(self.lines) >= self.places:
            raise NoPlace
        self.lines.append(clause)
        self.lengths.append(bin(clause).count('1'))
        self.origins.append(Origin(kind, variable, first, second))
        self.numbers[clause] = len(self.lines)
        return len(self.lines)

    def add(self, numbers):
        """Accepts a clause; gives its line, or None if it needs no line."""
        clause = mask_of(numbers)
        if clause & turned(clause):
            return None
        return self.numbers.get(clause) or self.write(clause, 'given')

    def load(self, text):
        """Accepts the clauses of a text one by one, telling each time."""
        for numbers, place in clauses_of(text, self.n):
            try:
                self.add(numbers)
            except NoPlace:
                raise Refused(8, place) from None
            yield numbers

    # What a valuation breaks.

    def others(self, false):
        """The literals that are not false."""
        return (1 << 2 * self.n) - 1 ^ false

    def broken(self, false):
        """The numbers of the lines whose literals are all false."""
        others = self.others(false)
        return [k for k, line in enumerate(self.lines, 1) if not line & others]

    def critical(self, false):
        """For each literal, the lines that have no other but false ones beside it."""
        others = self.others(false)
        found = collections.defaultdict(list)
        for k, line in enumerate(self.lines, 1):
            if once(line & others):
                found[line & others].append(k)
        return found

    def near(self, false):
        """The lines, as mask and length, with at most one literal not false."""
        others = self.others(false)
        rests = [line & others for line in self.lines]
        return [(line, size) for rest, line, size in zip(rests, self.lines, self.lengths) if not rest & rest - 1]

    def row(self, lines, false):
        """How many of these lines are broken, by length."""
        others = self.others(false)
        counts = [0] * 65
        for length in [size for line, size in lines if not line & others]:
            counts[length] += 1
        return counts

    # The run.

    def run(self, rank, budget):
        """Searches under a guide; gives the answer and the steps made."""
        steps = 0
        while True:
            if 0 in self.numbers:
                return 'none', steps
            if not self.broken(self.false):
                return 'met', steps
            if steps == budget:
                return 'spent', steps
            try:
                self.made[self.step(rank)] += 1
            except NoPlace:
                return 'full', steps
            steps += 1

    def step(self, rank):
        """Makes the first step that applies; gives its name."""
        if self.flip(rank):
            return 'flip'
        if self.learn():
            return 'learn'
        if self.bar():
            return 'bar'
        if self.sweep():
            return 'sweep'
        self.read_off()
        return 'read off'

    def flip(self, rank):
        """Goes to the best neighbour, if that is better than to stay.

        A line with two literals that are not false now is broken neither here
        nor at any neighbour, so only the others are looked at.
        """
        lines = self.near(self.false)
        best, to = rank(self.row(lines, self.false)), None
        for v in range(1, self.n + 1):
            neighbour = self.false ^ bit(v) ^ bit(-v)
            found = rank(self.row(lines, neighbour))
            if found < best:
                best, to = found, neighbour
        if to is None:
            return False
        self.false = to
        return True

    def learn(self):
        """A new resolvent of a broken line and a critical one."""
        critical = self.critical(self.false)
        for g in self.broken(self.false):
            for number in literals_of(self.lines[g - 1]):
                for h in critical.get(bit(-number), ()):
                    if self.resolve(abs(number), g, h):
                        return True
        return False

    def bar(self):
        """The clause that rules out the assignment and nothing else."""
        if self.false in self.numbers:
            return False
        self.write(self.false, 'widened', first=self.broken(self.false)[0])
        return True

    def sweep(self):
        """A new resolvent of any two lines that clash once."""
        for i, line in enumerate(self.lines, 1):
            opposite = turned(line)
            for j in range(i + 1, len(self.lines) + 1):
                clash = opposite & self.lines[j - 1]
                if once(clash) and self.resolve(abs(literals_of(clash)[0]), i, j):
                    return True
        return False

    def resolve(self, v, first, second):
        """Writes the resolvent on v, unless it stands in the book."""
        both = self.lines[first - 1] | self.lines[second - 1]
        resolvent = both & ~(bit(v) | bit(-v))
        if resolvent in self.numbers:
            return False
        self.write(resolvent, 'resolved', v, first, second)
        return True

    def read_off(self):
        """Sets the variables in turn, true where no line is broken by it."""
        false = 0
        for v in range(1, self.n + 1):
            trial = false | bit(-v)
            false = false | bit(v) if self.broken(trial) else trial
        self.false = false


# The program.

def solved(text):
    """The kind of answer, what is printed, and the solver in the end."""
    if len(text) > TEXT_MOST:
        raise Refused(9, 0)
    n, _ = head(text)
    if n == 0:
        raise Refused(2, 0)
    solver = Solver(PLACES)
    solver.open(n, 0)
    for _ in solver.load(text):
        pass
    kind, _ = solver.run(longest_first, BUDGET)
    return kind, printed(kind, solver), solver


def printed(kind, solver):
    """What the program prints for an answer of a run."""
    if kind == 'none':
        return 's UNSATISFIABLE\n'
    if kind != 'met':
        return 's UNKNOWN\n'
    return 's SATISFIABLE\nv %s 0\n' % ' '.join(map(str, solver.values()))


def answer(text):
    """The kind of answer, what is printed, and the steps by kind."""
    try:
        kind, told, solver = solved(text)
        return kind, told, solver.made
    except Refused as refused:
        told = 'c refused %d at %d\n' % (refused.number, refused.place)
        return 'refused %d' % refused.number, told, {}


# Random formulas, each as n and a list of clauses.

def random_clause(rng, n, size):
    return [rng.choice((v, -v)) for v in rng.sample(range(1, n + 1), min(size, n))]


def uniform(rng):
    """Equal lengths, about as many clauses as leave it open."""
    n = rng.randint(1, 8)
    size, low, high = rng.choice(((2, 0.8, 2.5), (3, 3.5, 7), (3, 4, 6), (3, 4, 6), (4, 8, 13)))
    count = round(n * rng.uniform(low, high))
    return n, [random_clause(rng, n, size) for _ in range(count)]


def mixed(rng):
    """Lengths from 1 to n."""
    n = rng.randint(1, 9)
    sizes = [size for size in (1, 2, 2, 3, 3, 3, 3, 4, 4, 5, 6, 7) if size <= n]
    count = rng.randint(0, 4 * n)
    return n, [random_clause(rng, n, rng.choice(sizes)) for _ in range(count)]


def planted(rng):
    """Many clauses, all met by one hidden assignment."""
    n = rng.randint(2, 10)
    hidden = {rng.choice((v, -v)) for v in range(1, n + 1)}
    drawn = (random_clause(rng, n, rng.choice((2, 3, 3, 3, 4))) for _ in range(rng.randint(n, 9 * n)))
    return n, [clause for clause in drawn if hidden.intersection(clause)]


def forced(rng):
    """A hidden assignment is the only one left, or is ruled out as well."""
    n = rng.randint(2, 7)
    order = rng.sample(range(1, n + 1), n)
    chain = [rng.choice((v, -v)) for v in order]
    clauses = [[-number for number in chain[max(0, at - 2):at]] + [chain[at]] for at in range(n)]
    if rng.random() < 0.5:
        clauses.append([-number for number in rng.sample(chain, rng.randint(1, n))])
    clauses += [random_clause(rng, n, 3) for _ in range(rng.randint(0, n))]
    rng.shuffle(clauses)
    return n, clauses


def excluded(rng):
    """Almost all assignments ruled out, one at a time."""
    n = rng.randint(1, 6)
    clauses = [[v if at >> v - 1 & 1 else -v for v in range(1, n + 1)] for at in range(1 << n)]
    rng.shuffle(clauses)
    return n, clauses[rng.choice((0, 0, 1, 2)):]


def closed(rng):
    """Most resolvents are among the clauses, so that a bar falls due."""
    n = rng.randint(2, 7)
    hidden = [v if rng.random() < 0.8 else -v for v in range(1, n + 1)]
    drawn = [[number] for number in hidden if rng.random() < 0.8]
    for _ in range(rng.randint(1, 2 * n)):
        one, *rest = rng.sample(hidden, rng.randint(2, n))
        drawn.append([one] + [-number for number in rest])
    masks = dict.fromkeys(map(mask_of, drawn))
    for _ in range(rng.randint(1, 4)):
        for one, two in itertools.combinations(list(masks), 2):
            clash = turned(one) & two
            if once(clash) and len(masks) < 150:
                masks[(one | two) & ~(clash | turned(clash))] = None
    kept = rng.choice((1, 1, 0.95))
    return n, [literals_of(mask) for mask in masks if rng.random() < kept]


def parity(rng):
    """A few exclusive sums."""
    n = rng.randint(3, 7)
    clauses = []
    for _ in range(rng.randint(1, n + 1)):
        among, odd = rng.sample(range(1, n + 1), rng.randint(2, 3)), rng.randint(0, 1)
        for signs in range(1 << len(among)):
            if bin(signs).count('1') % 2 != odd:
                clauses.append([-v if signs >> k & 1 else v for k, v in enumerate(among)])
    return n, clauses


def holes(rng):
    """Things to be put into slots, each slot for one."""
    things, slots = rng.choice(((2, 1), (2, 2), (3, 2), (3, 2), (3, 3), (3, 3), (4, 3), (4, 4)))
    named = [[thing * slots + slot + 1 for slot in range(slots)] for thing in range(things)]
    clauses = [list(row) for row in named]
    for slot in range(slots):
        for one in range(things):
            clauses += [[-named[one][slot], -named[two][slot]] for two in range(one + 1, things)]
    if rng.random() < 0.5:
        rng.shuffle(clauses)
    return things * slots, clauses


def wide(rng):
    """Many variables and few clauses."""
    n = rng.choice((64, 63, rng.randint(9, 64), rng.randint(9, 64)))
    sizes = rng.choice(((3,), (2, 3, 4), (1, 2, 3, 4, 5), (3, 4, 64), (10, 30, 63, 64)))
    count = rng.randint(1, round(n * rng.choice((0.5, 1, 1.5))))
    return n, [random_clause(rng, n, rng.choice(sizes)) for _ in range(count)]


def tangled(rng):
    """More variables than usual near the point where it is open."""
    n = rng.randint(9, 11)
    return n, [random_clause(rng, n, 3) for _ in range(round(n * rng.uniform(4, 5.5)))]


def tiny(rng):
    """Any clauses at all, the empty one among them."""
    n = rng.randint(1, 3)
    return n, [random_clause(rng, n, rng.randint(0 if rng.random() < 0.2 else 1, n)) for _ in range(rng.randint(0, 8))]


def crowded(rng):
    """About as many different clauses as the book has places."""
    n = rng.randint(11, 20)
    wanted = rng.choice((PLACES - 30, PLACES - 1, PLACES, PLACES, PLACES + 1, rng.randint(PLACES - 60, PLACES + 60)))
    hidden = {rng.choice((v, -v)) for v in range(1, n + 1)}
    easy = rng.random() < 0.5
    drawn = {}
    while len(drawn) < wanted:
        clause = random_clause(rng, n, rng.choice((3, 4, 4, 5)))
        if not easy or hidden.intersection(clause):
            drawn[mask_of(clause)] = clause
    clauses = list(drawn.values())
    for _ in range(rng.choice((0, 0, 1, 3))):
        clauses.append(list(rng.choice(clauses)))
    return n, clauses


FORMULAS = [uniform] * 32 + [mixed] * 12 + [planted] * 10 + [forced] * 8 + [closed] * 10 + [excluded] * 6
FORMULAS += [parity] * 6 + [holes] * 4 + [wide] * 8 + [tiny] * 8 + [tangled] * 1 + [crowded] * 3


def seasoned(rng, n, clauses):
    """With repeated clauses, repeated literals, and clauses always met."""
    clauses = [list(clause) for clause in clauses]
    for _ in range(rng.choice((0, 0, 1, 2)) if clauses else 0):
        again = list(rng.choice(clauses))
        rng.shuffle(again)
        clauses.insert(rng.randint(0, len(clauses)), again)
    for _ in range(rng.choice((0, 0, 0, 1, 2))):
        v = rng.randint(1, n)
        clauses.insert(rng.randint(0, len(clauses)), random_clause(rng, n, rng.randint(0, 2)) + [v, -v])
    if clauses and rng.random() < 0.2:
        clause = rng.choice(clauses)
        clause += clause
    return clauses


def stretched(rng, n, clauses):
    """With one clause drawn out to about the most literals, by repeats."""
    full = [clause for clause in clauses if clause]
    if full:
        clause = rng.choice(full)
        size = LITERALS_MOST + rng.choice((-1, 0, 0, 0, 1, 1, 2, 30))
        clause += [rng.choice(clause) for _ in range(size - len(clause))]
        if rng.random() < 0.25:
            clause[LITERALS_MOST:] = [rng.choice((n + 1, 100000))]


# Texts, as lists of words and then as bytes.

COMMENTS = (b'c', b'c\r', b'c p cnf 1 1', b'cnf', b'c\tx', b'c 1\r2 0', b'cc\x00\xff', b'c p', b'', b' \t', b'\r')
NO_COMMENTS = (b' c', b'\tc x', b'\rc', b'\r\rcnf', b'x', b'p', b'\x00', b'C')
GAPS = (b' ', b' ', b' ', b'\n', b'\n', b'\r\n', b'\t', b'  ', b' \n ', b'\n\n', b'\r')
ODD = (b'-', b'-0', b'00', b'07', b'-07', b'+1', b'--1', b'1-', b'c', b'cnf', b'p', b'P', b'x', b'%', b'1.0', b'1c',
       b'\x00', b'\x0b', b'\x0c', b'\xa0', b'\xff', b'100000', b'-100000', b'99999', b'-99999', b'65', b'-65',
       b'64', b'65536', b'65537', b'0', b'1', b'-1', b'18446744073709551617', b'4294967297')


def words_for(n, clauses):
    words = [b'p', b'cnf', b'%d' % n, b'%d' % len(clauses)]
    for clause in clauses:
        words += [b'%d' % number for number in clause] + [b'0']
    return words


def odd_word(rng, words):
    words.insert(rng.randint(0, len(words)), rng.choice(ODD))


def odd_early(rng, words):
    words[rng.randrange(4)] = rng.choice(ODD)


def odd_instead(rng, words):
    words[rng.randrange(len(words))] = rng.choice(ODD)


def one_lost(rng, words):
    del words[rng.randrange(len(words))]


def some_lost(rng, words):
    del words[rng.randrange(len(words)):]


def one_twice(rng, words):
    at = rng.randrange(len(words))
    words.insert(at, words[at])


def one_more(rng, words):
    words += rng.choice(([b'0'], [b'1'], [b'x'], [b'1', b'0'], [b'-100000'], [b'c'], [b'p', b'cnf', b'1', b'1']))


def other_n(rng, words):
    n = int(words[2])
    near = (b'%d' % max(0, n - 1), b'0%d' % n, b'0', b'0', b'-1')
    words[2] = rng.choice(near + (b'64', b'65', b'65', b'99999', b'100000'))


def other_m(rng, words):
    m = int(words[3])
    near = (b'%d' % max(0, m - 1), b'%d' % (m + 1), b'%d' % (m + 1), b'0', b'-1')
    words[3] = rng.choice(near + (b'65535', b'65536', b'65537', b'65537', b'99999', b'100000', b'0%d' % m))


def too_high(rng, words):
    at = rng.choice([k for k in range(4, len(words)) if words[k] != b'0'] or [3])
    above = int(words[2]) + rng.choice((1, 1, 1, 2, 10))
    words[at] = b'%d' % rng.choice((above, -above))


DAMAGES = (odd_word, odd_word, odd_early, odd_instead, one_lost, some_lost, one_twice, one_more)
DAMAGES += (other_n, other_m, too_high)


def damage(rng, words):
    """Once, or twice where the first left the problem line to itself."""
    for _ in range(rng.choice((1, 1, 1, 2))):
        if len(words) > 4 and words[2].isdigit() and words[3].isdigit():
            rng.choice(DAMAGES)(rng, words)


def joined(rng, words):
    """The words as text, with gaps and perhaps comments before them."""
    text = b''
    for _ in range(rng.choice((0, 0, 0, 1, 2, 4))):
        text += rng.choice(COMMENTS if rng.random() < 0.99 else NO_COMMENTS) + b'\n'
    plain = rng.random() < 0.5
    for word in words:
        gap = rng.choice(GAPS)
        text += word + (b'\n' if plain and word == b'0' else b' ' if plain else gap)
    return text.rstrip(b' \t\r\n') if rng.random() < 0.3 else text


def bytes_hurt(rng, text):
    """Cut off, or with a byte changed, lost or put in."""
    at = rng.randint(0, len(text))
    new = rng.choice((bytes([rng.randrange(256)]), rng.choice((b' ', b'\n', b'0', b'-', b'c', b'\ncnf 1\n'))))
    before, here, after = text[:at], text[at:at + 1], text[at + 1:]
    return before + rng.choice((b'', new + after, after, new + here + after))


def padded(rng, text):
    """Drawn out to about the most bytes a text may have, or beyond."""
    size = TEXT_MOST + rng.choice((-1, 0, 0, 0, 1, 1, 2, 4096, 65536, 1 << 20))
    lack = max(0, size - len(text))
    ways = (text + b' ' * lack, text + b'\n' * lack, b'\n' * lack + text, b' ' * lack + text)
    return rng.choice(ways + (b'c'.ljust(lack - 1, b'x') + b'\n' + text if lack > 1 else text,))


def random_text(rng):
    """A text, about three times in four sound."""
    n, clauses = rng.choice(FORMULAS)(rng)
    clauses = seasoned(rng, n, clauses)
    if rng.random() < 0.04:
        stretched(rng, n, clauses)
    words = words_for(n, clauses)
    luck = rng.random()
    if luck < 0.19:
        damage(rng, words)
    text = joined(rng, words)
    if 0.19 <= luck < 0.24:
        text = bytes_hurt(rng, text)
    if rng.random() < 0.01:
        text = padded(rng, text)
    return text


# The comparison.

def shown(text):
    """A text for print, not without end."""
    return repr(text) if len(text) < 4000 else '%r ... (%d bytes)' % (text[:4000], len(text))


def compared(program, text, kinds, steps):
    """Runs the program on a text; tells whether it printed what it should."""
    run = subprocess.run([program], input=text, stdout=subprocess.PIPE, check=False)
    kind, wanted, made = answer(text)
    kinds[kind] += 1
    steps.update(made)
    if run.returncode == 0 and run.stdout == wanted.encode():
        return True
    print('text   %s\nwanted %r\ntold   %r (status %d)' % (shown(text), wanted, run.stdout, run.returncode))
    return False


def counted(counts):
    """Counts in one line, numbers in their order."""
    def key(name):
        return [int(part) if part.isdigit() else part for part in name.split()]
    return ', '.join('%s: %d' % (name, counts[name]) for name in sorted(counts, key=key))


def main():
    program = sys.argv[1] if len(sys.argv) > 1 else 'crates/solve/out/solve'
    count = int(sys.argv[2]) if len(sys.argv) > 2 else 3000
    rng = random.Random(int(sys.argv[3]) if len(sys.argv) > 3 else 1)
    kinds, steps = collections.Counter(), collections.Counter()
    differences = sum(not compared(program, random_text(rng), kinds, steps) for _ in range(count))
    print('steps: %s' % counted(steps))
    print('answers: %s' % counted(kinds))
    print('%d texts, %d differences' % (count, differences))
    return 1 if differences else 0


if __name__ == '__main__':
    sys.exit(main())
