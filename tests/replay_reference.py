#!/usr/bin/env python3
"""Plays random lists of calls by a second reading of the rules and by the program, and compares.

    replay_reference.py PROGRAM [COUNT] [SEED]

Makes COUNT lists (1,000 if not said) from SEED (1 if not said). Each is played here and by PROGRAM
(the built program of crate replay); the whole output and the exit status are compared. For each
difference it prints the file that the list was put into, and the first line that differs. At the
end it prints how many lists, answers and differences there were, and how often each kind of answer
and each kind of step came. It exits with 1 if there was a difference, else with 0. The same COUNT
and SEED make the same lists. Python 3.8 or later, the standard library alone.

The rules are those of docs/REPLAY.md (lists, words, calls and answers), docs/SESSION.md (calls and
runs), docs/STEPS.md and docs/CLAUSES.md (rows, guides, the five steps, lines), docs/CLAUSE-TEXT.md
(texts), docs/REFUSALS.md (numbers and places) and docs/SHEET.md (sheets). Nothing here was taken
from the program's code. Four things were taken from its answers, since no page had them yet when
this was written: the numbers 19 and 20, that a sheet is refused with 5, 19 and 20 in this order,
that HEX of a padded text may be `-`, and that the last line may do without its LF. Of these a
comparison shows nothing.

What the lists cover: every call and every refusal; texts with every fault, comments and separators
of all kinds, and texts of 1,048,576 bytes and one byte more; numbers at their limits and one
beyond; sessions that are not made, not open, without places, full, over 65,536 and 65,537 places;
all four guides, runs that end in all four ways and go on after; sheets and reports with buffers
that are too short by one, exact, longer and empty; lines that fit no call; lists of 16,777,216
bytes and one byte more.

What it does not show: anything about lists that were not made; that the rules are right (both sides
may read a page wrongly in the same way, and no verdict is tried out here); what happens where
memory is short or the output cannot be written; how long anything takes. Searches are small: most
are over 1 to 4 variables, and those over up to 64 make few steps. Sizes near the largest that a
line may name (33,554,432) come only where little has to be kept for them.
"""

import collections
import os
import random
import re
import subprocess
import sys
import tempfile

# ---------------------------------------------------------------------------------------------
# Limits
# ---------------------------------------------------------------------------------------------

MOST_LIST = 16_777_216
MOST_SIZE = 33_554_432
MOST_TEXT = 1_048_576
MOST_PLACES = 65_536
MOST_CLAUSES = 65_536
MOST_NUMBERS = 128
MOST_BUDGET = 1_000_000
U32 = 2**32 - 1
U64 = 2**64 - 1


# ---------------------------------------------------------------------------------------------
# Clauses: pairs of two numbers, bit v - 1 of the first for v, of the second for -v
# ---------------------------------------------------------------------------------------------


def bits(word):
    return bin(word).count("1")


def variables(word):
    """The variables of a word, rising."""
    return [v for v in range(1, word.bit_length() + 1) if word >> (v - 1) & 1]


def literals(clause):
    """By rising variable, v before -v."""
    pos, neg = clause
    found = []
    for v in variables(pos | neg):
        if pos >> (v - 1) & 1:
            found.append(v)
        if neg >> (v - 1) & 1:
            found.append(-v)
    return found


def clause_of(numbers):
    pos = neg = 0
    for number in numbers:
        if number > 0:
            pos |= 1 << (number - 1)
        else:
            neg |= 1 << (-number - 1)
    return pos, neg


def is_broken(clause, trues, falses):
    """All literals are false."""
    pos, neg = clause
    return pos & ~falses == 0 and neg & ~trues == 0


def is_critical(clause, literal, trues, falses):
    """It holds the literal, which is true, and all its others are false."""
    pos, neg = clause
    bit = 1 << (abs(literal) - 1)
    if literal > 0:
        return pos & trues & bit != 0 and is_broken((pos & ~bit, neg), trues, falses)
    return neg & falses & bit != 0 and is_broken((pos, neg & ~bit), trues, falses)


def clashes(one, other):
    """The word of the variables in which they clash."""
    return one[0] & other[1] | one[1] & other[0]


def resolvent(one, other, v):
    rest = ~(1 << (v - 1))
    return (one[0] | other[0]) & rest, (one[1] | other[1]) & rest


# ---------------------------------------------------------------------------------------------
# Guides: the rank of a row, a list of 65 counts
# ---------------------------------------------------------------------------------------------

WEIGHTS = [65_537**k for k in range(65)]

RANKS = {
    b"longest": lambda row: sum(count * weight for count, weight in zip(row, WEIGHTS) if count),
    b"fewest": sum,
    b"const": lambda row: 0,
    b"revfewest": lambda row: 65_536 - sum(row),
}


# ---------------------------------------------------------------------------------------------
# Texts
# ---------------------------------------------------------------------------------------------

TEXT_WORD = re.compile(rb"[^ \t\r\n]+")
NUMBER_WORD = re.compile(rb"0|-?[1-9][0-9]{0,4}")
COUNT_WORD = re.compile(rb"0|[1-9][0-9]{0,4}")


class Fault(Exception):
    """Who refuses, with which number, and at which place."""


def text_words(text):
    """The words outside comments, each with its place; at the end None, with the text's length."""
    start, early = 0, True
    while start < len(text):
        end = text.find(b"\n", start)
        end = len(text) if end < 0 else end
        if not (early and text[start : start + 1] == b"c"):
            for found in TEXT_WORD.finditer(text, start, end):
                early = early and found.group() != b"p"
                yield found.start(), found.group()
        start = end + 1
    yield len(text), None


def problem_line(words, limit):
    """Takes the words p, cnf, n, m; n and m."""
    for expected in (b"p", b"cnf"):
        place, word = next(words)
        if word != expected:
            raise Fault("text", 10, place)
    numbers = []
    for most in (limit, MOST_CLAUSES):
        place, word = next(words)
        if word is None or not COUNT_WORD.fullmatch(word):
            raise Fault("text", 10, place)
        if int(word) > most:
            raise Fault("text", 11, place)
        numbers.append(int(word))
    return numbers


def head(text):
    if len(text) > MOST_TEXT:
        raise Fault("text", 9, 0)
    return problem_line(text_words(text), 64)


def clauses(text, limit):
    """The clauses in order, each with the place of its ending 0. May end with a fault."""
    if len(text) > MOST_TEXT:
        raise Fault("text", 9, 0)
    words = text_words(text)
    n, m = problem_line(words, limit)
    numbers, given = [], 0
    for place, word in words:
        if word is None:
            if numbers:
                raise Fault("text", 14, place)
            if given < m:
                raise Fault("text", 16, place)
            return
        if given == m:
            raise Fault("text", 15, place)
        if not NUMBER_WORD.fullmatch(word):
            raise Fault("text", 12, place)
        number = int(word)
        if abs(number) > n:
            raise Fault("text", 13, place)
        if number == 0:
            yield numbers, place
            numbers, given = [], given + 1
        elif len(numbers) == MOST_NUMBERS:
            raise Fault("book", 6, place)
        else:
            numbers.append(number)


# ---------------------------------------------------------------------------------------------
# Sessions
# ---------------------------------------------------------------------------------------------


class Refused(Exception):
    """With the number of the refusal."""


class Session:
    def __init__(self, places, steps):
        self.places = places
        self.n = 0
        self.assignment = 0
        self.clauses = []
        self.origins = []
        self.numbers = {}
        self.steps = steps

    # Small things

    def must_be_open(self):
        if self.n == 0:
            raise Refused(5)

    def is_full(self):
        return len(self.clauses) >= self.places

    def write(self, origin, clause):
        self.clauses.append(clause)
        self.origins.append(origin)
        self.numbers[clause] = len(self.clauses)

    def broken(self, trues, falses):
        """The numbers of the broken lines, oldest first, one by one."""
        for k, clause in enumerate(self.clauses, 1):
            if is_broken(clause, trues, falses):
                yield k

    def falses(self, assignment):
        return ~assignment & ((1 << self.n) - 1)

    # Calls

    def open(self, n, start):
        if self.n != 0:
            raise Refused(1)
        if not 1 <= n <= 64:
            raise Refused(2)
        if self.places > MOST_PLACES:
            raise Refused(3)
        if start >> n:
            raise Refused(4)
        self.n, self.assignment = n, start

    def accept(self, numbers):
        """The number of the clause's line, None for a tautology."""
        clause = clause_of(numbers)
        if clause[0] & clause[1]:
            return None
        if clause not in self.numbers:
            if self.is_full():
                raise Refused(8)
            self.write(("given",), clause)
        return self.numbers[clause]

    def add(self, numbers):
        self.must_be_open()
        if len(numbers) > MOST_NUMBERS:
            raise Refused(6)
        if any(number == 0 or abs(number) > self.n for number in numbers):
            raise Refused(7)
        return self.accept(numbers)

    def load(self, text):
        """How many clauses were taken, and the fault that ended it, or None."""
        if self.n == 0:
            return 0, ("session", 5, 0)
        taken = 0
        try:
            for numbers, place in clauses(text, self.n):
                try:
                    self.accept(numbers)
                except Refused as refused:
                    raise Fault("book", refused.args[0], place) from None
                taken += 1
        except Fault as fault:
            return taken, fault.args
        return taken, None

    def restart(self, start):
        self.must_be_open()
        if start >> self.n:
            raise Refused(4)
        self.assignment = start

    def run(self, rank, budget):
        self.must_be_open()
        if budget > MOST_BUDGET:
            raise Refused(17)
        made = 0
        while True:
            if (0, 0) in self.numbers:
                return "none", made
            if next(self.broken(self.assignment, self.falses(self.assignment)), None) is None:
                return "met", made
            if made == budget:
                return "spent", made
            if not self.step(rank):
                return "full", made
            made += 1

    def line(self, k):
        self.must_be_open()
        if not 1 <= k <= len(self.clauses):
            raise Refused(18)
        return self.origins[k - 1], self.clauses[k - 1]

    def sheet(self):
        self.must_be_open()
        if (0, 0) not in self.numbers:
            raise Refused(19)
        lines = list(enumerate(zip(self.origins, self.clauses), 1))
        given = [k for k, (origin, _) in lines if origin[0] == "given"]
        derived = [k for k, (origin, _) in lines if origin[0] != "given"]
        on_sheet = {k: place for place, k in enumerate(given + derived, 1)}
        items = [[self.n], [len(given)]]
        items += [literals(self.clauses[k - 1]) + [0] for k in given]
        items.append([len(derived)])
        for k in derived:
            origin = self.origins[k - 1]
            if origin[0] == "resolved":
                items.append([origin[1], on_sheet[origin[2]], on_sheet[origin[3]]])
            else:
                items.append([0, on_sheet[origin[1]]] + literals(self.clauses[k - 1]) + [0])
        return "".join(" ".join(map(str, item)) + "\n" for item in items)

    # The five steps

    def step(self, rank):
        """Makes the step that is due. False where a line is due and no place is free."""
        v = self.flip(rank)
        if v is not None:
            self.assignment ^= 1 << (v - 1)
            self.steps["flip"] += 1
            return True
        for name, find in (("learn", self.learn), ("bar", self.bar), ("sweep", self.sweep)):
            found = find()
            if found is not None:
                if self.is_full():
                    return False
                self.write(*found)
                self.steps[name] += 1
                return True
        self.assignment = self.read_off()
        self.steps["read off"] += 1
        return True

    def weigh(self, assignment, rank):
        row = [0] * 65
        falses = self.falses(assignment)
        for pos, neg in self.clauses:
            if not pos & assignment and not neg & falses:
                row[bits(pos | neg)] += 1
        return rank(row)

    def flip(self, rank):
        here = self.weigh(self.assignment, rank)
        best = min(
            (self.weigh(self.assignment ^ 1 << (v - 1), rank), v) for v in range(1, self.n + 1)
        )
        return best[1] if best[0] < here else None

    def learn(self):
        trues, falses = self.assignment, self.falses(self.assignment)
        for g in self.broken(trues, falses):
            one = self.clauses[g - 1]
            for literal in literals(one):
                for h, other in enumerate(self.clauses, 1):
                    if is_critical(other, -literal, trues, falses):
                        clause = resolvent(one, other, abs(literal))
                        if clause not in self.numbers:
                            return ("resolved", abs(literal), g, h), clause
        return None

    def bar(self):
        trues, falses = self.assignment, self.falses(self.assignment)
        clause = (falses, trues)
        oldest = next(self.broken(trues, falses), None)
        if oldest is None or clause in self.numbers:
            return None
        return ("widened", oldest), clause

    def sweep(self):
        for i, one in enumerate(self.clauses, 1):
            for j in range(i + 1, len(self.clauses) + 1):
                other = self.clauses[j - 1]
                clash = clashes(one, other)
                if clash and clash & (clash - 1) == 0:
                    v = clash.bit_length()
                    clause = resolvent(one, other, v)
                    if clause not in self.numbers:
                        return ("resolved", v, i, j), clause
        return None

    def read_off(self):
        trues = falses = 0
        for v in range(1, self.n + 1):
            bit = 1 << (v - 1)
            if next(self.broken(trues | bit, falses), None) is None:
                trues |= bit
            else:
                falses |= bit
        return trues


# ---------------------------------------------------------------------------------------------
# Lines of a list
# ---------------------------------------------------------------------------------------------

DECIMAL = re.compile(rb"0|[1-9][0-9]*")
SIGNED = re.compile(rb"0|-?[1-9][0-9]*")
HEXADECIMAL = re.compile(rb"0|[1-9a-f][0-9a-f]*")
PAIRS = re.compile(rb"[0-9a-f]*")
PADDED = re.compile(rb"(-|[0-9a-f]*)\+([0-9a-f]{2})\*([0-9]+)")


class Misfit(Exception):
    """The line fits no call."""


def decimal(word, most):
    if not DECIMAL.fullmatch(word) or len(word) > 20 or int(word) > most:
        raise Misfit
    return int(word)


def size(word):
    return decimal(word, MOST_SIZE)


def u32(word):
    return decimal(word, U32)


def u64(word):
    return decimal(word, U64)


def i32(word):
    if not SIGNED.fullmatch(word) or len(word) > 11 or not -(2**31) <= int(word) < 2**31:
        raise Misfit
    return int(word)


def hexadecimal(word):
    if not HEXADECIMAL.fullmatch(word) or len(word) > 16:
        raise Misfit
    return int(word, 16)


def pairs(word):
    if not PAIRS.fullmatch(word) or len(word) % 2 or len(word) // 2 > MOST_SIZE:
        raise Misfit
    return bytes.fromhex(word.decode())


def text(word):
    if word == b"-":
        return b""
    padded = PADDED.fullmatch(word)
    if not padded:
        if word == b"":
            raise Misfit
        return pairs(word)
    # HEX may also be left out: it may be anything that is a text without it, so `-` too.
    front, count = b"" if padded[1] == b"-" else pairs(padded[1]), size(padded[3])
    if len(front) + count > MOST_SIZE:
        raise Misfit
    # Of a text that is too long nothing is read, so it is not written out.
    return front + pairs(padded[2]) * min(count, MOST_TEXT + 1)


def guide(word):
    if word not in RANKS:
        raise Misfit
    return RANKS[word]


def read(words, *readers):
    if len(words) != len(readers):
        raise Misfit
    return [reader(word) for reader, word in zip(readers, words)]


class Player:
    """Plays lines, one after another."""

    def __init__(self):
        self.session = None
        self.steps = collections.Counter()

    def turn(self, line):
        """The answer to one line, None for one that is passed over."""
        if line == b"" or line[:1] == b"#":
            return None
        words = line.split(b" ")
        try:
            return self.call(words[0], words[1:])
        except Misfit:
            return "error"
        except Refused as refused:
            return f"refused {refused.args[0]}"

    def call(self, name, words):
        if name == b"new":
            (places,) = read(words, size)
            self.session = Session(places, self.steps)
            return "ok"
        if name == b"head":
            (given,) = read(words, text)
            try:
                return "head {} {}".format(*head(given))
            except Fault as fault:
                return "fault {} {} at {}".format(*fault.args)
        session = self.session
        if session is None:
            raise Misfit
        if name == b"open":
            session.open(*read(words, u32, hexadecimal))
            return "ok"
        if name == b"add":
            number = session.add([i32(word) for word in words])
            return "line none" if number is None else f"line {number}"
        if name == b"load":
            taken, fault = session.load(*read(words, text))
            return ("fault {} {} at {} ".format(*fault) if fault else "") + f"taken {taken}"
        if name == b"restart":
            session.restart(*read(words, hexadecimal))
            return "ok"
        if name == b"run":
            return "{} {}".format(*session.run(*read(words, guide, u32)))
        if name == b"line":
            origin, (pos, neg) = session.line(*read(words, u32))
            return " ".join(map(str, origin)) + f" pos {pos:x} neg {neg:x}"
        if name == b"sheet":
            (length,) = read(words, size)
            try:
                return self.written(session.sheet(), length)
            except Refused as refused:
                return f"refused {refused.args[0]} " + "aa" * length
        if name == b"report":
            return self.report(words)
        if name == b"state":
            read(words)
            return f"lines {len(session.clauses)} n {session.n} assign {session.assignment:x}"
        raise Misfit

    def report(self, words):
        if words[:1] == [b"fault"]:
            number, place, length = read(words[1:], u32, u64, size)
            return self.written(f"c refused {number} at {place}\n", length)
        reports = {
            b"met": self.met(),
            b"none": "s UNSATISFIABLE\n",
            b"spent": "s UNKNOWN\n",
            b"full": "s UNKNOWN\n",
        }
        if words[:1] == [] or words[0] not in reports:
            raise Misfit
        (length,) = read(words[1:], size)
        return self.written(reports[words[0]], length)

    def met(self):
        assignment = self.session.assignment
        values = [v if assignment >> (v - 1) & 1 else -v for v in range(1, self.session.n + 1)]
        return "s SATISFIABLE\nv " + "".join(f"{value} " for value in values) + "0\n"

    @staticmethod
    def written(content, length):
        if len(content) > length:
            return "refused 20 " + "aa" * length
        return f"length {len(content)} " + content.encode().hex() + "aa" * (length - len(content))


def play(data):
    """The answers to a list, each with its line, and how often each kind of step was made."""
    player = Player()
    if len(data) > MOST_LIST:
        return [(b"", "error")], player.steps
    lines = data.split(b"\n")
    answers = []
    for line in lines:
        answer = player.turn(line)
        if answer is not None:
            answers.append((line, answer))
    return answers, player.steps


# ---------------------------------------------------------------------------------------------
# Random lists
# ---------------------------------------------------------------------------------------------

NAMES = [
    b"new", b"open", b"add", b"load", b"head", b"restart", b"run", b"line", b"sheet", b"report",
    b"state",
]
GUIDES = sorted(RANKS)
REPORTS = [b"met", b"none", b"spent", b"full"]

# Words that some reader of numbers or of hexadecimals may take, or take wrongly.
ODD_WORDS = [
    b"", b"-", b"+", b"*", b"+5", b"+0", b"-0", b"007", b"00", b"-07", b"-5", b"--5", b"5-", b"0x5",
    b"0X5", b"5.", b"5.0", b"1e1", b"1_0", b"1,000", b"A", b"F", b"fF", b"Ff", b"0f", b"abc", b"g",
    b"2147483647", b"2147483648", b"-2147483648", b"-2147483649", b"4294967295", b"4294967296",
    b"4294967297", b"18446744073709551615", b"18446744073709551616", b"ffffffffffffffff",
    b"10000000000000000", b"fffffffffffffffff", b"99999999999999999999999999999999999999",
    b"\xd9\xa3", b"\xef\xbc\x95", b"\xff", b"\x80", b"\xc3", b"\x00", b"5\x00", b"\x0b", b"5\x0c",
    b"\t", b"5\t", b"5\r", b"\r", b"#", b"5#", b"none", b"met", b"fault", b"const", b"longest",
    b"revfewest", b"fewest", b"line", b"new", b"33554433", b"65537", b"-1", b"0", b"1", b"2",
    b"+20*3", b"+20*0", b"-+20*3", b"70+20*", b"70+2*3", b"70+200*3", b"+2A*3", b"+2a*03",
    b"+20*33554433", b"+20*-1", b"+20*+1", b"70*20+3", b"+20*1+20*1", b"7", b"70", b"7G", b"7 0",
    b"0A", b"00+20*33554432", b"+20*33554432", b"--", b"-70", b"70-", b"--+20*3",
    b"70-+20*3", b"-70+20*3", b"+20*3-", b"+-*3", b"+20*-", b"-+20*0", b"0+20*3", b"700+20*3",
]

# Words that are no numbers, or nearly so.
ODD_NUMBERS = [
    b"-0", b"-0", b"-0", b"+1", b"00", b"01", b"-07", b"-", b"123456", b"-123456", b"100000",
    b"000001", b"99999", b"-99999", b"1x", b"1\x0b", b"\x0c1", b"--1", b"1-", b"65536", b"+0",
    b"0x1", b"1.0",
]

ODD_TEXT_WORDS = [
    b"-0", b"+1", b"+0", b"00", b"01", b"007", b"-07", b"-", b"--1", b"1-", b"123456", b"-123456",
    b"100000", b"99999", b"-99999", b"65535", b"65536", b"65537", b"-65536", b"0", b"1", b"-1",
    b"2", b"-2", b"3", b"64", b"-64", b"65", b"-65", b"66", b"x", b"1x", b"x1", b"p", b"c", b"cnf",
    b"CNF", b"P", b"pcnf", b"cn", b"cnff", b"pp", b"c1", b"\x00", b"\x00" b"1", b"1\x00", b"\xff",
    b"\x80", b"1\xff", b"\x0b", b"1\x0b", b"\x0c1", b"1\x0c" b"2", b"\x1f", b"\x85", b"\xa0",
    b"\xc2\xa0", b"\xe2\x88\x921", b"\xd9\xa3", b"1.0", b"1e1", b"1_0", b"0x1", b"%", b"\x08",
    b"4294967297", b"18446744073709551617", b"-18446744073709551615", b"#", b"'", b"\x7f",
]

COMMENTS = [
    b"c\n", b"c comment\n", b"cnf 1\n", b"c p cnf 1 1\n", b"c\r\n", b"c\tx\n", b"c \xff\x00 p\n",
    b"cp\n", b"ccc\n", b"c1 0\n", b"c x\rp cnf 9 9\r\n", b"c\r1 0\n", b"c\x0bp\x0c\n",
]

SEPARATORS = [b" ", b"\n", b"\t", b"\r", b"\r\n", b"  ", b"\n\n", b" \n", b"\n ", b" \t\r\n "]


def text_word(rng, given):
    """A text as a word of a list."""
    if not given and rng.random() < 0.7:
        return b"-"
    if rng.random() < 0.25:
        if not given:
            return rng.choice([b"", b"-"]) + b"+%02x*0" % rng.randrange(256)
        if rng.random() < 0.6:
            front = given.rstrip(given[-1:])
            front = given[: rng.randint(len(front), len(given))]
            if len(front) < len(given):
                return b"%s+%02x*%d" % (
                    front.hex().encode(), given[-1], len(given) - len(front))
        return b"%s+%02x*0" % (given.hex().encode(), rng.randrange(256))
    return given.hex().encode() or b"-"


def spoiled(rng, line):
    """The line, changed so that it fits no call, or another one."""
    words = line.split(b" ")
    which = rng.randrange(len(words))
    way = rng.randrange(22)
    if way == 0:
        return line + b" "
    if way == 1:
        return b" " + rng.choice([line, line, b"# a comment", b"", b"#"])
    if way == 2:
        words.insert(rng.randrange(len(words) + 1), b"")
    elif way == 3:
        return line.replace(b" ", b"\t", 1) if b" " in line else line + b"\t"
    elif way == 4:
        return line + rng.choice([b"\r", b"\t", b"\x00", b"\x0b", b"\x0c", b"\xa0", b"#", b" #x"])
    elif way == 5:
        which = rng.randrange(min(1, len(words) - 1), len(words))
        words[which] = rng.choice([b"+", b"0", b"00", b"-", b"0x", b"\t", b"\xff"]) + words[which]
    elif way == 6:
        words[which] = words[which].upper()
    elif way == 7:
        words[which] = words[which][: rng.randrange(len(words[which]) + 1)]
    elif way == 8:
        del words[which]
    elif way in (9, 10, 11):
        words[which] = rng.choice(ODD_WORDS)
    elif way == 12:
        words.insert(rng.randrange(1, len(words) + 1), rng.choice(ODD_WORDS))
    elif way == 13:
        words[0] = rng.choice(NAMES + [b"close", b"solve", b"clear", b"lines", b"n", b"runs", b""])
    elif way == 14:
        words[which] = words[which][:1].upper() + words[which][1:]
    elif way == 15:
        words.append(rng.choice(words))
    elif way == 16:
        at = rng.randrange(len(line) + 1)
        byte = rng.choice([0, 9, 11, 13, 32, 95, 127, 128, 160, 255])
        return line[:at] + bytes([byte]) + line[at:]
    elif way == 17:
        at = rng.randrange(len(line) + 1)
        return line[:at] + line[at + 1 :]
    elif way == 18:
        rng.shuffle(words)
    elif way == 19:
        return line.replace(b" ", b"")
    elif way == 20:
        return bytes(rng.choice(b"adlnoprst 0123-+*\t\xff") for _ in range(rng.randrange(12)))
    else:
        words[which] = words[which] + rng.choice([b"f", b"F", b"+", b"-", b".", b"\xc3", b"g"])
    # No call that would lay out much memory.
    return b" ".join(words)


class Maker:
    """Makes one list, and plays it beside, to know what the session holds."""

    def __init__(self, rng):
        self.rng = rng
        self.data = bytearray()
        self.player = Player()
        self.spoil = rng.choice([0, 0, 0.02, 0.1, 0.4])
        self.guides = rng.choice([GUIDES, GUIDES, [b"longest"], [b"fewest"], [b"const"],
                                  [b"const"], [b"revfewest"], [b"const", b"revfewest"],
                                  [b"longest", b"const"]])

    def chance(self, odds):
        return self.rng.random() < odds

    @property
    def session(self):
        return self.player.session

    @property
    def n(self):
        """The variables of the session, some number where it has none."""
        if self.session is not None and self.session.n:
            return self.session.n
        return self.rng.randint(1, 4)

    def put(self, line):
        """A line as it is."""
        if line.split(b" ")[0] in (b"new", b"sheet", b"report"):
            last = line.split(b" ")[-1]
            if DECIMAL.fullmatch(last) and 200_000 < int(last[:20]) <= MOST_SIZE:
                return
        self.data += line + b"\n"
        self.player.turn(line)

    def say(self, line):
        """A line, now and then with others beside it or in its place."""
        rng = self.rng
        if self.chance(0.03):
            self.data += rng.choice([b"\n", b"\n\n", b"#\n", b"#\r\n", b"# a comment\n",
                                     b"#new 1\n", b"# \xff\x00\t\n"])
        if self.chance(self.spoil):
            self.put(spoiled(rng, line))
            if self.chance(0.5):
                return
        self.put(line)

    # Arguments

    def start(self):
        rng, n = self.rng, self.n
        word = rng.choice([
            0, 0, rng.getrandbits(n), rng.getrandbits(n), rng.getrandbits(n), (1 << n) - 1,
            1 << (n - 1), rng.getrandbits(n),
        ])
        if self.chance(0.02):
            return rng.choice([b"0%x" % word, b"00", b"0x%x" % word, b"%X" % word, b"-%x" % word])
        if self.chance(0.08):
            word = rng.choice([1 << n, 1 << n | 1, U64, rng.getrandbits(64), 1 << 63, U64 + 1])
        return b"%x" % word

    def clause(self, n):
        """The numbers of a clause over n variables, mostly."""
        rng = self.rng
        width = min(n, rng.choice([0, 1, 1, 2, 2, 2, 3, 3, 3, n, n]))
        numbers = [rng.choice([v, -v]) for v in rng.sample(range(1, n + 1), width)]
        if numbers and self.chance(0.08):
            numbers += rng.choices(numbers, k=rng.randint(1, 3))
            rng.shuffle(numbers)
        if numbers and self.chance(0.04):
            numbers.append(-rng.choice(numbers))
        return numbers

    def numbers(self):
        """The numbers of an add."""
        rng, n = self.rng, self.n
        if self.chance(0.015):
            numbers = rng.choices(range(1, n + 1), k=rng.choice([127, 128, 129, 130]))
            if self.chance(0.3):
                numbers[rng.randrange(127)] = rng.choice([0, n + 1, -n - 1, 2**31 - 1, -numbers[0]])
            return numbers
        numbers = self.clause(n)
        if not numbers and self.chance(0.8):
            numbers = [rng.choice([-1, 1]) * rng.randint(1, n)]
        if self.chance(0.03):
            numbers.insert(rng.randrange(len(numbers) + 1), rng.choice(
                [0, n + 1, -n - 1, 64, -64, 65, -65, 2**31 - 1, -(2**31), 1 - 2**31, 2**31]))
        return numbers

    def budget(self):
        rng = self.rng
        if self.chance(0.04):
            return rng.choice([1_000_001, 2**31, U32, U32 + 1, 2**33])
        small = rng.choice([0, 0, 1, 1, 2, 3, 4, 7, 12, 30])
        session = self.session
        if session is not None and (session.n > 4 and session.places > 100):
            return small
        return rng.choice([small, 100, 1000, 999_999, 1_000_000])

    def length(self, exact):
        """The length of a buffer for so many bytes."""
        return max(0, self.rng.choice([0, 1, exact - 1, exact - 1, exact, exact, exact + 1,
                                       exact + 7, 2 * exact]))

    # Calls

    def say_add(self):
        self.say(b" ".join([b"add"] + [b"%d" % number for number in self.numbers()]))

    def say_run(self):
        self.say(b"run %s %d" % (self.rng.choice(self.guides), self.budget()))

    def say_line(self):
        lines = len(self.session.clauses) if self.session else 0
        k = self.rng.choice([0, 1, lines, lines, lines + 1, self.rng.randint(0, lines + 1),
                             self.rng.randint(0, lines + 1), 65_536, U32, U32 + 1])
        self.say(b"line %d" % k)

    def say_lines(self):
        """Some lines of the book, the newest among them."""
        lines = len(self.session.clauses) if self.session else 0
        for k in range(max(1, lines - 12), lines + 1):
            self.say(b"line %d" % k)

    def say_sheet(self):
        try:
            exact = len(self.session.sheet()) if self.session else 10
        except Refused:
            exact = self.rng.randrange(40)
        self.say(b"sheet %d" % self.length(exact))

    def say_report(self):
        rng = self.rng
        if self.chance(0.3):
            number = rng.choice([rng.randint(0, 21), rng.randint(1, 20), 9, 10, U32, U32 + 1])
            place = rng.choice([0, 0, 7, rng.getrandbits(20), rng.getrandbits(64), U32, U64,
                                U64 + 1])
            exact = len(f"c refused {number} at {place}\n")
            self.say(b"report fault %d %d %d" % (number, place, self.length(exact)))
            return
        kind = rng.choice(REPORTS)
        exact = {b"none": 16, b"spent": 10, b"full": 10}.get(kind)
        if exact is None:
            exact = len(self.player.met()) if self.session else 18
        self.say(b"report %s %d" % (kind, self.length(exact)))

    def say_text(self, name=None):
        name = name or self.rng.choice([b"load", b"load", b"head"])
        self.say(b"%s %s" % (name, text_word(self.rng, self.text())))

    def say_open(self, n):
        start = self.rng.choice([0, 0, self.rng.getrandbits(n), self.rng.getrandbits(n),
                                 (1 << n) - 1])
        self.say(b"open %d %x" % (n, start))

    def say_any(self):
        self.rng.choices(
            [self.say_run, self.say_add, self.say_line, self.say_sheet, self.say_report,
             self.say_text, lambda: self.say(b"state"),
             lambda: self.say(b"restart " + self.start()),
             lambda: self.say(b"open %d %s" % (self.rng.choice([1, 2, 64, 65]), self.start())),
             self.say_lines],
            weights=[10, 6, 4, 4, 4, 2, 3, 2, 0.5, 1.5],
        )[0]()

    # Texts

    def text(self):
        rng = self.rng
        n = self.n
        if self.chance(0.15):
            n = rng.choice([0, 1, max(0, n - 1), n + 1, 64, 65])
        count = rng.choice([0, 1, 2, 2, 3, 4, 5])
        numbers = [self.clause(n) if n else [] for _ in range(count)]
        if count and self.chance(0.1):
            numbers[rng.randrange(count)].append(rng.choice([n + 1, -n - 1, n + 1, 64, -65]))
        if numbers and n and self.chance(0.1):
            long = rng.choices(range(1, n + 1), k=rng.choice([127, 128, 129, 129, 130]))
            if self.chance(0.4):
                long[rng.choice([126, -1, -2])] = rng.choice([n + 1, -n - 1, 123_456, 99_999])
            numbers[rng.randrange(count)] = long
        m = count
        if self.chance(0.12):
            m = rng.choice([0, count + 1, max(0, count - 1), 65_535, 65_536, 65_537, 99_999])
        words = [b"p", b"cnf", b"%d" % n, b"%d" % m]
        for clause in numbers:
            words += [b"%d" % number for number in clause] + [b"0"]
        if len(words) > 4 and self.chance(0.2):
            words.insert(rng.randint(4, len(words)), rng.choice(ODD_NUMBERS))
        if self.chance(0.15):
            del words[rng.randint(min(4, len(words)), len(words)) :]
        for _ in range(rng.choice([0, 0, 0, 0, 0, 0, 1, 1, 2])):
            self.break_words(words)
        return self.break_bytes(self.lay_out(words))

    def break_words(self, words):
        """One word is another, or gone, or one more."""
        rng = self.rng
        at = rng.randint(min(4, len(words)), len(words))
        if self.chance(0.3):
            at = rng.randrange(min(4, len(words) + 1))
        way = rng.randrange(5)
        if way == 0 and at < len(words):
            del words[at]
        elif way == 1 and at < len(words):
            words[at] += rng.choice([b"0", b"x", b"\x00", b"\xff", b"-", b"\x0b"])
        elif way in (1, 2):
            words.insert(at, rng.choice(ODD_TEXT_WORDS))
        elif at < len(words):
            words[at] = rng.choice(ODD_TEXT_WORDS)
        else:
            words.append(rng.choice(ODD_TEXT_WORDS))

    def lay_out(self, words):
        """The words with separators and comments."""
        rng = self.rng
        wild = self.chance(0.4)
        made = bytearray()
        comments = self.chance(0.4)
        for place, word in enumerate(words):
            if comments and (not made or made.endswith(b"\n")) and self.chance(0.3):
                made += rng.choice(COMMENTS)
            if place == 0:
                while self.chance(0.3):
                    made += rng.choice(COMMENTS if comments else [b"\n", b" ", b"\t", b"\r\n"])
                if self.chance(0.03):
                    made += rng.choice([b" ", b"\t", b"\r", b"\n "]) + rng.choice(COMMENTS)
            made += word
            if wild:
                made += rng.choice(SEPARATORS)
            else:
                made += b"\n" if word == b"0" and place > 3 or place == 3 else b" "
        if self.chance(0.3):
            made = made.rstrip(b" \t\r\n")
        if self.chance(0.05):
            made += rng.choice([b"\nc", b"\nc comment", b"\nc\n", b" c", b"c"])
        return bytes(made)

    def break_bytes(self, made):
        rng = self.rng
        if made and self.chance(0.1):
            return made[: rng.randrange(len(made) + 1)]
        if made and self.chance(0.05):
            at = rng.randrange(len(made))
            return made[:at] + bytes([rng.randrange(256)]) + made[at + rng.randrange(2) :]
        if self.chance(0.01):
            return rng.choice([b"", b"\n", b"c", b"c\n", b" ", b"\x00", b"p", b"p ", b"p cnf",
                               b"p cnf 1", b"p cnf 1 ", b"p cnf 1 0", b"cp cnf 1 0", b"pcnf 1 0"])
        return made

    # Kinds of lists

    def searches(self):
        """Small sessions that are filled and searched."""
        rng = self.rng
        for _ in range(rng.choice([1, 1, 1, 2])):
            n = rng.choice([1, 2, 2, 3, 3, 3, 4, 4, 5, 6, 8])
            places = rng.choice([0, 1, 2, 3, 4, 5, 8, 12, 16, 27, 40, 81, 81, 100])
            if n <= 4:
                places = rng.choice([places, 81, 100, 1000])
            self.say(b"new %d" % places)
            self.say_open(n)
            for _ in range(rng.choice([1, n, 2 * n, 3 * n, 4 * n, 2**n if n < 5 else 5 * n])):
                self.say_add()
            for _ in range(rng.randint(2, 14)):
                self.say_any()
            if self.chance(0.5):
                self.say_run()
                self.say_sheet()
                self.say_report()
                self.say(b"state")

    def exact_searches(self):
        """All or nearly all clauses of one length over few variables, and one guide."""
        rng = self.rng
        n = rng.choice([1, 2, 2, 3, 3, 4])
        self.say(b"new %d" % rng.choice([3**n, 3**n, 3**n - 1, 2**n, 2**n + 2, 100]))
        self.say_open(n)
        width = rng.randint(1, n)
        over = rng.sample(range(1, n + 1), width)
        signs = list(range(2**width))
        rng.shuffle(signs)
        for sign in signs[: rng.choice([2**width, 2**width, 2**width - 1, 2**width // 2])]:
            numbers = [v if sign >> at & 1 else -v for at, v in enumerate(over)]
            self.say(b" ".join([b"add"] + [b"%d" % number for number in numbers]))
        which = rng.choice(self.guides)
        for _ in range(rng.randint(1, 8)):
            self.say(b"run %s %d" % (which, rng.choice([0, 1, 1, 2, 5, 1000])))
            if self.chance(0.3):
                self.say_any()
            if self.chance(0.15) and self.session and self.session.clauses:
                clause = literals(rng.choice(self.session.clauses))
                rng.shuffle(clause)
                self.say(b" ".join([b"add"] + [b"%d" % number for number in clause]))
        if self.chance(0.7):
            self.say(b"run %s 1000000" % which)
            self.say(b"state")
        self.say_sheet()
        self.say_sheet()
        self.say_report()
        for k in range(1, len(self.session.clauses) + 1 if self.session else 1):
            self.put(b"line %d" % k)
        if self.chance(0.3):
            for _ in range(rng.randint(1, 6)):
                self.say_any()

    def larger_searches(self):
        """Up to 64 variables, and few steps."""
        rng = self.rng
        n = rng.choice([9, 12, 16, 20, 33, 50, 63, 64, 64])
        self.say(b"new %d" % rng.choice([30, 100, 150, 300]))
        self.say_open(n)
        for _ in range(rng.choice([n, 2 * n, 3 * n])):
            width = rng.choice([1, 2, 2, 3, 3, 3, 3, n])
            numbers = [rng.choice([v, -v]) for v in rng.sample(range(1, n + 1), min(n, width))]
            self.put(b" ".join([b"add"] + [b"%d" % number for number in numbers]))
        for _ in range(rng.randint(2, 8)):
            self.say(b"run %s %d" % (rng.choice(self.guides), rng.choice([0, 1, 3, 8, 20])))
            if self.chance(0.5):
                self.say_any()
        self.say_lines()
        self.say(b"state")
        self.say_report()

    def wide_rows(self):
        """Many lines of several lengths, so that many are broken at once, and few steps."""
        rng = self.rng
        n = rng.choice([5, 6, 8, 12, 20, 40, 64])
        many = rng.choice([30, 60, 120, 250, 700])
        widths = rng.sample(range(1, 7), rng.randint(2, 4))
        signs = rng.choice([[1, -1], [1, 1, 1, -1], [-1, -1, -1, 1]])
        made = b"p cnf %d %d\n" % (n, many)
        for _ in range(many):
            over = rng.sample(range(1, n + 1), min(n, rng.choice(widths)))
            made += b" ".join(b"%d" % (rng.choice(signs) * v) for v in over) + b" 0\n"
        self.say(b"new %d" % rng.choice([many, many + 20, 1000]))
        self.say_open(n)
        self.put(b"load " + made.hex().encode())
        for _ in range(rng.randint(2, 6)):
            self.say(b"run %s %d" % (rng.choice(self.guides), rng.choice([1, 1, 2, 4])))
            self.say(rng.choice([b"state", b"restart " + self.start()]))
            if self.chance(0.3):
                self.say_any()
        self.say_lines()

    def texts(self):
        rng = self.rng
        if self.chance(0.8):
            self.say(b"new %d" % rng.choice([0, 1, 2, 3, 5, 100]))
            if self.chance(0.9):
                self.say_open(rng.choice([1, 2, 3, 5, 64]))
        for _ in range(rng.randint(2, 14)):
            self.say_text()
            if self.chance(0.1):
                self.say_any()
        if self.session is not None:
            self.say(b"state")
            self.say_lines()
            self.say(b"run %s 5" % rng.choice(self.guides))

    def misfits(self):
        rng = self.rng
        self.spoil = rng.choice([0.5, 0.9])
        if self.chance(0.8):
            self.put(b"new %d" % rng.choice([0, 1, 4, 50]))
            if self.chance(0.9):
                self.put(b"open 3 5")
        for _ in range(rng.randint(5, 30)):
            if self.chance(0.2):
                words = [rng.choice(NAMES)] + rng.choices(ODD_WORDS, k=rng.randrange(4))
                self.put(b" ".join(words))
            elif self.chance(0.1):
                self.say(b"new %d" % rng.choice([0, 1, 4, 50, 65_536]))
            else:
                self.say_any()

    def boundaries(self):
        rng = self.rng
        if self.chance(0.5):
            for _ in range(rng.randint(1, 6)):
                self.say_any()
        for _ in range(rng.randint(1, 3)):
            self.say(b"new %d" % rng.choice(
                [0, 1, 2, 3, 65_535, 65_536, 65_537, 100_000, 33_554_433, U32, U64 + 1]))
            if self.chance(0.4):
                for _ in range(rng.randint(1, 6)):
                    self.say_any()
            for _ in range(rng.randint(1, 4)):
                n = rng.choice([0, 1, 2, 3, 63, 64, 64, 65, 66, 128, U32, U32 + 1, 2**64 + 1])
                size_of = min(n, 64)
                start = rng.choice([0, 1, 1 << size_of, (1 << size_of) - 1, U64, U64 + 1, 1 << 63,
                                    1 << max(0, size_of - 1), rng.getrandbits(64)])
                self.say(b"open %d %x" % (n, start))
                self.say(b"state")
            n = self.n
            for _ in range(rng.randint(1, 10)):
                self.say(b"add " + b" ".join(b"%d" % rng.choice(
                    [n, -n, n, -n, 1, -1, n + 1, -n - 1, 0, 64, -64, 65, -65, 2**31 - 1, 2**31,
                     -(2**31), -(2**31) - 1]) for _ in range(rng.choice([1, 1, 1, 2, 2, 3]))))
                if self.chance(0.3):
                    self.say(b"run %s %d" % (rng.choice(GUIDES), rng.choice(
                        [0, 1, 2, 1_000_000, 1_000_001, U32, U32 + 1])))
                if self.chance(0.2):
                    self.say(b"restart %x" % rng.choice(
                        [0, 1, 1 << (n - 1), (1 << n) - 1, 1 << n, U64, U64 + 1, 1 << 63]))
                if self.chance(0.3):
                    self.say_any()

    def long_texts(self):
        """Texts of about the most bytes."""
        rng = self.rng
        self.put(b"new %d" % rng.choice([1, 5, 100]))
        self.put(b"open %d 0" % rng.choice([2, 5, 64]))
        for _ in range(rng.randint(1, 3)):
            front = rng.choice([self.text(), self.text(), b"p cnf 2 1 1 -2 0 ", b"p cnf 1 1 ", b"c",
                                b"p cnf 2 2 1 0\n", b"p cnf 2 1 1 0\nc", b"", b"p c"])
            pad = rng.choice([b" ", b" ", b" ", b"\t", b"\r", b"0", b"1", b"-", b"x", b"\xff", b"c",
                              b"\x00"])
            if self.chance(0.1):
                pad = b"\n"
            total = rng.choice([MOST_TEXT - 1, MOST_TEXT, MOST_TEXT, MOST_TEXT + 1, MOST_TEXT + 1,
                                2 * MOST_TEXT, MOST_SIZE, MOST_SIZE + 1])
            self.put(b"%s %s+%02x*%d" % (rng.choice([b"load", b"load", b"head"]),
                                         front.hex().encode(), pad[0], total - len(front)))
            self.put(b"state")

    def many_clauses(self):
        """A text of as many clauses as may be, over few places."""
        rng = self.rng
        many = rng.choice([MOST_CLAUSES, MOST_CLAUSES - 1])
        kinds = rng.sample([b"0\n", b"1 0\n", b"-2 1 0\n", b"1 -1 0\n", b"2 0 "], rng.randint(1, 3))
        made = b"p cnf 2 %d\n" % many + b"".join(rng.choices(kinds, k=many))
        made += rng.choice([b"", b"", b"0", b"1", b"x"])
        self.put(b"new %d" % rng.choice([1, 2, 3, 3]))
        self.put(b"open 2 0")
        self.put(b"load %s" % made.hex().encode())
        self.say_lines()
        self.put(b"run longest 4")

    def full_book(self):
        """As many lines as a book may have."""
        rng = self.rng
        self.put(b"new 65536")
        self.put(b"open 64 %x" % rng.getrandbits(64))
        made, known = [], set()
        while len(made) < MOST_PLACES - 2:
            numbers = [rng.choice([v, -v]) for v in sorted(rng.sample(range(1, 65), 3))]
            if tuple(numbers) not in known:
                known.add(tuple(numbers))
                made.append(b"%d %d %d 0\n" % tuple(numbers))
        written = b"p cnf 64 %d\n" % len(made) + b"".join(made)
        self.put(b"load %s" % written.hex().encode())
        self.put(b"state")
        self.put(b"run longest 1")
        for number in (1, -2, 3, 1, 4):
            self.put(b"add %d" % number)
        self.put(b"load %s" % b"p cnf 64 3 2 -2 0 1 0 5 0".hex().encode())
        for k in (1, 65_535, 65_536, 65_537):
            self.put(b"line %d" % k)
        self.put(b"run fewest 0")

    def long_list(self):
        """A list of as many bytes as may be, or one more."""
        rng = self.rng
        self.searches()
        total = rng.choice([MOST_LIST, MOST_LIST, MOST_LIST + 1])
        tail = rng.choice([b"state\n", b"\n", b"x\n"])
        self.data += b"#" + b"x" * (total - len(self.data) - len(tail) - 2) + b"\n" + tail

    def make(self):
        kinds = [
            (self.searches, 46), (self.exact_searches, 16), (self.texts, 18), (self.misfits, 8),
            (self.boundaries, 8), (self.larger_searches, 2.5), (self.wide_rows, 3),
            (self.long_texts, 0.8), (self.many_clauses, 0.1), (self.full_book, 0.04),
            (self.long_list, 0.3),
        ]
        self.rng.choices([kind for kind, _ in kinds], [weight for _, weight in kinds])[0]()
        if self.chance(0.04):
            self.data += self.rng.choice([b"state", b"new 1", b"x", b" ", b"#", b"add", b"state\r",
                                          b"report none 16", b"head 70", b"\xff"])
        if self.chance(0.003):
            self.data = self.data[: self.rng.randrange(len(self.data) + 1)]
        return bytes(self.data)


# ---------------------------------------------------------------------------------------------
# Comparing
# ---------------------------------------------------------------------------------------------


def kind_of(line, answer):
    """What is counted of an answer: its words without what they tell, and for some its call."""
    call, words = line.split(b" ")[0].decode(errors="replace"), answer.split(" ")
    if words[0] in ("refused", "length", "ok"):
        return " ".join([call, words[0]] + (words[1:2] if words[0] == "refused" else []))
    if words[0] == "fault":
        return f"{call} fault {words[1]} {words[2]}"
    if answer == "line none" or words[0] not in ("error", "line"):
        return answer if answer == "line none" else words[0]
    return words[0]


def run_program(program, data):
    """Its output and exit status."""
    try:
        done = subprocess.run(
            [program], input=data, stdout=subprocess.PIPE, stderr=subprocess.DEVNULL, timeout=120)
    except subprocess.TimeoutExpired:
        return b"", "none within 120 seconds"
    return done.stdout, done.returncode


def shortened(line):
    shown = repr(line)
    return shown if len(shown) <= 300 else shown[:200] + f".. ({len(line)} bytes)"


def tell_difference(path, answers, output, status):
    print(f"difference: {path}")
    if status != 0:
        print(f"  exit status {status} and not 0")
    told = output.split(b"\n")
    for k in range(max(len(answers), len(told))):
        line, answer = answers[k] if k < len(answers) else (None, "")
        got = told[k] if k < len(told) else None
        if got != answer.encode():
            print(f"  answer {k + 1}" + ("" if line is None else f", to {shortened(line)}"))
            print(f"    here    {shortened(answer.encode()) if line is not None else 'no more'}")
            print(f"    program {shortened(got) if got is not None else 'no more'}")
            return
    print("  the same lines, but for the LF at their end")


def main():
    if not 2 <= len(sys.argv) <= 4:
        sys.exit(__doc__.split("\n\n")[1].strip())
    program = os.path.abspath(sys.argv[1])
    count = int(sys.argv[2]) if len(sys.argv) > 2 else 1000
    seed = int(sys.argv[3]) if len(sys.argv) > 3 else 1
    kinds, steps = collections.Counter(), collections.Counter()
    total = differences = 0
    folder = None
    for number in range(count):
        data = Maker(random.Random(f"{seed} {number}")).make()
        answers, made = play(data)
        total += len(answers)
        kinds.update(kind_of(line, answer) for line, answer in answers)
        steps.update(made)
        output, status = run_program(program, data)
        if status != 0 or output != "".join(answer + "\n" for _, answer in answers).encode():
            differences += 1
            folder = folder or tempfile.mkdtemp(prefix="replay-differences-")
            path = os.path.join(folder, f"{seed}-{number}.calls")
            with open(path, "wb") as file:
                file.write(data)
            tell_difference(path, answers, output, status)
    print(f"{count} lists, {total} answers, {differences} differences")
    print("answers: " + ", ".join(f"{kind} {kinds[kind]}" for kind in sorted(kinds)))
    names = ("flip", "learn", "bar", "sweep", "read off")
    print("steps: " + ", ".join(f"{name} {steps[name]}" for name in names))
    sys.exit(1 if differences else 0)


if __name__ == "__main__":
    main()
