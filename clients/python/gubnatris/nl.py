"""Reads AMPL's .nl files, text and binary (D. M. Gay, Writing .nl Files), as far as they say linear programs with whole variables.

What a linear program hasn't is refused by its name. Numbers are exact: those of a text file as they stand there, those of a binary file as
the shortest decimals that read back.
"""

from __future__ import annotations

import math
import re
import struct
from decimal import Decimal
from fractions import Fraction
from typing import NamedTuple, Optional

from .errors import Error
from .exact import exact
from .instances import NUMBER
from .limits import MOST_COLUMNS, MOST_VALUES

HEADER_LINES = 10
LONGEST_WORD = 1_000
OPERATORS = {
    0: "+", 1: "-", 2: "*", 3: "/", 4: "mod", 5: "^", 6: "less", 11: "min", 12: "max", 13: "floor", 14: "ceil", 15: "abs", 16: "unary -",
    20: "or", 21: "and", 22: "<", 23: "<=", 24: "=", 28: ">=", 29: ">", 30: "!=", 34: "not", 35: "if", 37: "tanh", 38: "tan", 39: "sqrt",
    40: "sinh", 41: "sin", 42: "log10", 43: "log", 44: "exp", 45: "cosh", 46: "cos", 47: "atanh", 48: "atan2", 49: "atan", 50: "asinh",
    51: "asin", 52: "acosh", 53: "acos", 54: "sum", 55: "div", 56: "precision", 57: "round", 58: "trunc", 59: "count", 60: "numberof",
    64: "a piecewise-linear term", 65: "if", 74: "alldiff", 75: "alldiff", 76: "^", 77: "^ 2", 78: "^",
}  # fmt: skip
SPECIAL = {"F": "a function of its own", "V": "a defined variable", "L": "a logical constraint"}


class BadFile(Error):
    """A file is no .nl of a linear program; the text says where and why."""


class Suffix(NamedTuple):
    """A suffix of the file: of what it is (0 variables, 1 rows, 2 goals, 3 the problem), and its name."""

    of: int
    name: str


class Ends(NamedTuple):
    low: Optional[Fraction]
    high: Optional[Fraction]


class NlGoal:
    """A goal: whether more is better, its constant, and its costs by variables."""

    def __init__(self) -> None:
        self.maximise, self.constant = False, Fraction(0)
        self.costs: dict[int, Fraction] = {}


class NlProgram:
    """What a file says. The last variables are the 0-1 ones, and behind these the whole ones."""

    def __init__(self, options: list[str], counts: list[list[int]]):
        self.options = options
        self.variables, self.rows, self.goals_told = counts[0][:3]
        self.binaries, self.integers = counts[5][:2]
        self.values, self.costs_told = counts[6][:2]
        self.has_names = any(counts[7][:2])
        self.variable_ends: list[Ends] = []
        self.row_ends: list[Ends] = []
        self.factors: list[dict[int, Fraction]] = [{} for _ in range(self.rows)]
        self.constants = [Fraction(0)] * self.rows
        self.goals = [NlGoal() for _ in range(self.goals_told)]
        self.first: dict[int, Fraction] = {}
        self.suffixes: list[Suffix] = []

    def is_whole(self, variable: int) -> bool:
        return variable >= self.variables - self.binaries - self.integers


class TextFeed:
    """The lines behind the header of a text file, and the words of the one that is read."""

    def __init__(self, data: bytes, begin: int):
        try:
            self.lines = data[begin:].decode("ascii").split("\n")
        except UnicodeDecodeError as failure:
            raise BadFile(f"byte {begin + failure.start + 1} isn't text, and the file begins as a text file (g)") from failure
        self.at, self.words = 0, list[str]()

    def where(self) -> str:
        return f"line {HEADER_LINES + self.at}"

    def line(self) -> None:
        """Goes on to the next line that has something."""
        while self.at < len(self.lines):
            self.words = self.lines[self.at].split("#", 1)[0].split()
            self.at += 1
            if self.words:
                return
        raise BadFile(f"it ends behind {self.where()}, inside a segment")

    def key(self) -> Optional[str]:
        """The letter that begins the next segment, or none at the end."""
        while self.at < len(self.lines) and not self.lines[self.at].split("#", 1)[0].strip():
            self.at += 1
        if self.at == len(self.lines):
            return None
        self.line()
        return self.letter()

    def letter(self) -> str:
        """The first letter of the line's first word, which is taken off."""
        first, rest = self.words[0][0], self.words[0][1:]
        self.words[:1] = [rest] if rest else []
        return first

    def node(self) -> str:
        self.line()
        return self.letter()

    def word(self) -> str:
        if not self.words:
            raise BadFile(f"{self.where()}: it ends too soon")
        return self.words.pop(0)

    def integer(self) -> int:
        word = self.word()
        if not re.fullmatch(r"-?\d{1,10}", word):
            raise BadFile(f"{self.where()}: {word[:40]!r} is no whole number")
        return int(word)

    code = constant_code = integer

    def number(self) -> Fraction:
        word = self.word()
        if not NUMBER.fullmatch(word) or len(word) > LONGEST_WORD:
            raise BadFile(f"{self.where()}: {word[:40]!r} is no number")
        return exact(Decimal(word), self.where())

    def infinite(self) -> int:
        """Takes an infinity, where one stands there, and gives its sign; else 0."""
        if not self.words or self.words[0].lower().lstrip("+-") not in ("inf", "infinity"):
            return 0
        return -1 if self.words.pop(0).startswith("-") else 1

    def short(self) -> Fraction:
        return self.number()

    long = short


class BinaryFeed:
    """The bytes behind the header of a binary file."""

    def __init__(self, data: bytes, begin: int, order: str):
        self.data, self.at, self.order = data, begin, order

    def where(self) -> str:
        return f"byte {self.at + 1}"

    def line(self) -> None:
        """A binary file has no lines."""

    def take(self, form: str) -> float | int | bytes:
        size = struct.calcsize(self.order + form)
        if self.at + size > len(self.data):
            raise BadFile(f"it ends at byte {len(self.data)}, inside a segment")
        (found,) = struct.unpack_from(self.order + form, self.data, self.at)
        self.at += size
        return found  # type: ignore[no-any-return]

    def key(self) -> Optional[str]:
        return self.node() if self.at < len(self.data) else None

    def node(self) -> str:
        return bytes(self.take("c")).decode("latin-1")  # type: ignore[arg-type]

    def integer(self) -> int:
        return int(self.take("i"))

    def code(self) -> int:
        """A kind of ends: a digit as a character."""
        letter = self.node()
        if not letter.isdecimal():
            raise BadFile(f"byte {self.at}: {letter!r} is no kind of ends")
        return int(letter)

    def number(self) -> Fraction:
        return exact(float(self.take("d")), self.where())

    def infinite(self) -> int:
        """Takes an infinity, where one stands there, and gives its sign; else 0."""
        before, found = self.at, float(self.take("d"))
        if math.isinf(found):
            return 1 if found > 0 else -1
        self.at = before
        return 0

    def short(self) -> Fraction:
        return Fraction(int(self.take("h")))

    def long(self) -> Fraction:
        return Fraction(int(self.take("i")))

    def word(self) -> str:
        length = self.integer()
        if not 0 <= length <= LONGEST_WORD:
            raise BadFile(f"{self.where()}: a name of {length} bytes")
        return bytes(self.take(f"{length}s")).decode("latin-1")  # type: ignore[arg-type]


Feed = TextFeed | BinaryFeed


def read_nl(data: bytes) -> NlProgram:
    """The program of a file. Raises `BadFile`, and `BadModel` for a number that no document has."""
    lines, begin = [], 0
    for number in range(1, HEADER_LINES + 1):
        stop = data.find(b"\n", begin, begin + LONGEST_WORD)
        if stop < 0:
            raise BadFile(f"it is no .nl file: its header has {HEADER_LINES} lines, and line {number} is cut" if number > 1 else _no_nl(data))
        lines.append(data[begin:stop].decode("latin-1").split("#", 1)[0].split())
        begin = stop + 1
    if not lines[0] or lines[0][0][0] not in "gb":
        raise BadFile(_no_nl(data))
    counts = [_counts(words, number) for number, words in enumerate(lines[1:], 2)]
    _find_beyond(counts)
    program = NlProgram([lines[0][0][1:], *lines[0][1:]], counts)
    is_text = lines[0][0][0] == "g"
    order = ">" if counts[4][2:3] == [2] else "<"
    _Reader(program, TextFeed(data, begin) if is_text else BinaryFeed(data, begin, order)).read()
    return program


def _no_nl(data: bytes) -> str:
    return f"it is no .nl file: it begins with {data[:12].decode('latin-1')!r}, and .nl with g or b"


def _counts(words: list[str], number: int) -> list[int]:
    least = {2: 3, 3: 2, 4: 2, 5: 3, 6: 2, 7: 2, 8: 2, 9: 2, 10: 0}[number]
    if len(words) < least or not all(re.fullmatch(r"\d{1,9}", word) for word in words):
        raise BadFile(f"line {number} of the header should have {least} or more counts")
    return [int(word) for word in words] + [0] * (8 - len(words))


def _find_beyond(counts: list[list[int]]) -> None:
    """Raises where the header tells of more than any file may hold, before there is room made for it."""
    variables, rows, goals = counts[0][:3]
    for found, most, what in (
        (variables, MOST_COLUMNS, "variables"),
        (rows, MOST_COLUMNS, "rows"),
        (goals, MOST_COLUMNS, "goals"),
        (counts[6][0], MOST_VALUES, "values in the rows"),
    ):
        if found > most:
            raise BadFile(f"it is too big: {found:,} {what}, and {most:,} are the most")
    if sum(counts[5][:2]) > variables:
        raise BadFile("its header has more whole variables than variables")
    if counts[0][5]:
        raise BadFile("it has logical constraints, which aren't part of a linear program")


class _Reader:
    """Reads the segments of a file into a program."""

    def __init__(self, program: NlProgram, feed: Feed):
        self.program, self.feed, self.seen = program, feed, set[str]()

    def read(self) -> None:
        take = {"C": self.row, "O": self.goal, "r": self.row_ends, "b": self.variable_ends, "k": self.skip_counts, "K": self.skip_counts,
                "J": self.factors, "G": self.costs, "x": self.first_values, "d": self.skip_duals, "S": self.suffix}  # fmt: skip
        while (key := self.feed.key()) is not None:
            if key in SPECIAL:
                raise BadFile(f"{self.feed.where()}: it has {SPECIAL[key]} (segment {key}), which isn't part of a linear program")
            if key not in take:
                raise BadFile(f"{self.feed.where()}: there is no segment {key!r}")
            take[key]()
        self.finish()

    def once(self, what: str) -> None:
        if what in self.seen:
            raise BadFile(f"{self.feed.where()}: a second {what}")
        self.seen.add(what)

    def index(self, most: int, what: str) -> int:
        found = self.feed.integer()
        if not 0 <= found < most:
            raise BadFile(f"{self.feed.where()}: {what} {found}, and there are {most}")
        return found

    def count(self, most: int, what: str) -> int:
        found = self.feed.integer()
        if not 0 <= found <= most:
            raise BadFile(f"{self.feed.where()}: {found} {what}, and there are {most} at most")
        return found

    def constant(self, of: str) -> Fraction:
        """An expression, which has to be a number: what else stands there isn't linear."""
        kind = self.feed.node()
        if kind == "n":
            return self.feed.number()
        if kind in "sl":
            return self.feed.short() if kind == "s" else self.feed.long()
        if kind == "o":
            code = self.feed.integer()
            raise BadFile(f"{self.feed.where()}: {of} isn't linear: it has the operator {OPERATORS.get(code, f'number {code}')}")
        what = {"v": "a variable", "f": "a function", "h": "a text"}.get(kind, f"{kind!r}")
        raise BadFile(f"{self.feed.where()}: {of} isn't linear: it has {what} in its nonlinear part")

    def row(self) -> None:
        row = self.index(self.program.rows, "row")
        self.once(f"segment C of row {row}")
        self.program.constants[row] = self.constant(f"row {row}")

    def goal(self) -> None:
        number = self.index(self.program.goals_told, "goal")
        self.once(f"segment O of goal {number}")
        goal = self.program.goals[number]
        goal.maximise = self.feed.integer() != 0
        goal.constant = self.constant(f"goal {number}")

    def ends(self, of: str) -> Ends:
        self.feed.line()
        code = self.feed.code()
        if code == 4:
            low = high = self.end(0, of)
        elif code in (0, 1, 2, 3):
            low = self.end(-1, of) if code in (0, 2) else None
            high = self.end(1, of) if code in (0, 1) else None
        else:
            raise BadFile(f"{self.feed.where()}: {of} {'is a complementarity, which is not linear' if code == 5 else f'has ends of kind {code}'}")
        return Ends(low, high)

    def end(self, infinity: int, of: str) -> Optional[Fraction]:
        """An end, none where it is the infinity of this sign: a lower one's is -1, an upper one's 1, and where both are one there is none."""
        sign = self.feed.infinite()
        if sign and sign != infinity:
            raise BadFile(f"{self.feed.where()}: {of} has an end that is {'minus ' if sign < 0 else ''}infinity, which no value reaches")
        return None if sign else self.feed.number()

    def row_ends(self) -> None:
        self.once("segment r")
        self.program.row_ends = [self.ends(f"row {i}") for i in range(self.program.rows)]

    def variable_ends(self) -> None:
        self.once("segment b")
        self.program.variable_ends = [self.ends(f"variable {j}") for j in range(self.program.variables)]

    def skip_counts(self) -> None:
        for _ in range(self.count(self.program.variables, "columns")):
            self.feed.line()
            self.feed.integer()

    def terms(self, count: int) -> dict[int, Fraction]:
        found: dict[int, Fraction] = {}
        for _ in range(count):
            self.feed.line()
            column = self.index(self.program.variables, "variable")
            if column in found:
                raise BadFile(f"{self.feed.where()}: a second number of variable {column}")
            found[column] = self.feed.number()
        return found

    def factors(self) -> None:
        row = self.index(self.program.rows, "row")
        self.once(f"segment J of row {row}")
        self.program.factors[row] = self.terms(self.count(self.program.variables, "terms"))

    def costs(self) -> None:
        goal = self.index(self.program.goals_told, "goal")
        self.once(f"segment G of goal {goal}")
        self.program.goals[goal].costs = self.terms(self.count(self.program.variables, "terms"))

    def first_values(self) -> None:
        """The values that a search is to begin with."""
        self.once("list of first values (segment x)")
        for _ in range(self.count(self.program.variables, "first values")):
            self.feed.line()
            variable = self.index(self.program.variables, "variable")
            self.program.first[variable] = self.feed.number()

    def skip_duals(self) -> None:
        """First values of duals, which no search here begins with."""
        for _ in range(self.count(self.program.rows, "first duals")):
            self.feed.line()
            self.feed.integer()
            self.feed.number()

    def suffix(self) -> None:
        kind = self.feed.integer()
        count = self.count(max(self.program.variables, self.program.rows, self.program.goals_told, 1), "values")
        self.program.suffixes.append(Suffix(kind & 3, self.feed.word()))
        for _ in range(count):
            self.feed.line()
            self.feed.integer()
            if kind & 4:
                self.feed.number()
            else:
                self.feed.long()

    def finish(self) -> None:
        """Whether all is there, and the counts of the header are those of the file."""
        program = self.program
        for there, count, what in (
            (len(program.variable_ends), program.variables, "ends of variables (segment b)"),
            (len(program.row_ends), program.rows, "ends of rows (segment r)"),
            (sum(map(len, program.factors)), program.values, "values in the rows (segments J)"),
            (sum(len(goal.costs) for goal in program.goals), program.costs_told, "values in the goals (segments G)"),
        ):
            if there != count:
                raise BadFile(f"its header says {count} {what}, and it has {there}")
