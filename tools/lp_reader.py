"""Reads CPLEX's LP format (IBM CPLEX, File formats: LP), each number exactly.

`docs/rules/planner_files.md` says which sections are read and what they mean.
"""

import re

import linear_program as lp
from linear_program import Complaint

TOKEN = re.compile(
    r"(?P<space>[ \t]+)|(?P<number>(?:\d+\.?\d*|\.\d+)(?:[eE][+-]?\d+)?)|(?P<arrow>->|<->)|(?P<relation>[<>]=|=[<>]|[<>=])|(?P<sign>[+-])"
    r"|(?P<colon>:)|(?P<name>[A-Za-z!\"#$%&(),;?@_'`{}|~/][\w!\"#$%&(),.;?@'`{}|~/\[\]]*)|(?P<other>.)"
)
RELATIONS = {"<": "<", "<=": "<", "=<": "<", ">": ">", ">=": ">", "=>": ">", "=": "="}
INFINITIES = ("inf", "infinity")
MAXIMA, MINIMA = "maximize maximise maximum max".split(), "minimize minimise minimum min".split()
SEVERAL = "multi-objectives"  # behind the goal's first word: several goals, each with words of its own about it
# What a goal of several says of itself, and what holds where it doesn't. Goals are exact, so none may be missed by a tolerance; the one
# that Gurobi writes where nobody set any is taken as none, and said.
GOAL_WORDS = {"priority": 0, "weight": 1, "abstol": 0, "reltol": 0}
UNMEANT = lp.decimal.Decimal("1e-6")
GOALS = ("max several", "min several", "max", "min")  # the sections with goals
# The first words of a line that begin a section, longest first.
HEADS = [
    (words.split(), section)
    for section, forms in (
        *zip(GOALS, ([f"{word} {SEVERAL}" for word in MAXIMA], [f"{word} {SEVERAL}" for word in MINIMA], MAXIMA, MINIMA)),
        ("rows", ["subject to", "such that", "s.t.", "st.", "st"]),
        ("bounds", ["bounds", "bound"]),
        ("whole", ["generals", "general", "gen", "integers", "integer", "int"]),
        ("binary", ["binaries", "binary", "bin"]),
        ("semi", ["semi-continuous", "semis", "semi"]),
        ("end", ["end"]),
        ("", ["sos", "sos1", "sos2", "lazy constraints", "user cuts", "pwlobj", "general constraints",
              SEVERAL, "scenario"]),
    )
    for words in forms
]  # fmt: skip
HEADS.sort(key=lambda head: -len(head[0]))


def heading(line):
    """The section that a line begins, the words that say so, and the rest of the line; nothing where it begins none."""
    words = line.split(None, 2)
    for form, section in HEADS:
        if [word.lower() for word in words[: len(form)]] == form:
            rest = line.split(None, len(form))[len(form) :]
            if not rest or not rest[0].startswith(":"):
                return section, " ".join(form), rest[0] if rest else ""
    return None


def tokens_of(line, count):
    """The kinds, texts and line numbers of what stands in a line."""
    found = []
    for token in TOKEN.finditer(line):
        kind = token.lastgroup
        if kind == "arrow":
            raise Complaint(f"line {count}: an indicator (->) isn't linear; a 0-1 variable and a bound can say it")
        if kind == "other" and token.group() in "[]^*":
            raise Complaint(f"line {count}: {token.group()} begins what isn't linear; a factor stands before its variable, a space between")
        if kind == "other":
            raise Complaint(f"line {count}: the character {token.group()!r} stands in no name")
        if kind != "space":
            found.append((kind, token.group(), count))
    return found


def sections_of(text):
    """The sections in their order: what each is, and its tokens."""
    sections = []
    for count, line in enumerate(text.split("\n"), 1):
        line = line.split("\\", 1)[0].strip()
        if not line:
            continue
        if sections and sections[-1][0] == "end":
            raise Complaint(f"line {count}: something stands behind End")
        head = heading(line)
        if head:
            section, words, line = head
            if not section:
                raise Complaint(f"line {count}: the section {words} isn't read; it isn't part of a linear program with whole variables")
            sections.append((section, []))
        elif not sections:
            raise Complaint(f"it isn't CPLEX's LP format: line {count} begins with {line.split()[0][:40]!r}, and Minimize or Maximize comes first")
        sections[-1][1].extend(tokens_of(line, count))
    return sections


class Tokens:
    """The tokens of a section, one after another."""

    def __init__(self, tokens):
        self.tokens, self.at = tokens, 0

    def kind(self, ahead=0):
        return self.tokens[self.at + ahead][0] if self.at + ahead < len(self.tokens) else None

    def text(self):
        return self.tokens[self.at][1]

    def where(self):
        """Where the next token stands, or the last one, where none is left."""
        return f"line {self.tokens[min(self.at, len(self.tokens) - 1)][2]}"

    def take(self):
        self.at += 1
        return self.tokens[self.at - 1][1]

    def signs(self):
        """Takes signs, and tells whether they make a negative and how many they are."""
        start, negative = self.at, False
        while self.kind() == "sign":
            negative ^= self.take() == "-"
        return negative, self.at - start

    def is_infinity(self):
        return self.kind() == "name" and self.text().lower() in INFINITIES

    def label(self):
        """A name with a colon behind it, or nothing."""
        if self.kind() == "name" and self.kind(1) == "colon":
            name = self.take()
            self.take()
            return name
        return ""

    def relation(self):
        if self.kind() != "relation":
            what = f"{self.text()!r}" if self.kind() else "the end"
            raise Complaint(f"{self.where()}: <=, >= or = should stand there, and here is {what}")
        return RELATIONS[self.take()]

    def no_number(self):
        """Why there is no number here."""
        what = f"{self.text()!r}" if self.kind() else "the end"
        return Complaint(f"{self.where()}: a number should stand there, and here is {what}")

    def number(self):
        """A number, with its signs."""
        negative, _ = self.signs()
        if self.kind() != "number":
            raise self.no_number()
        value = lp.number(self.text(), self.where())
        self.take()
        return -value if negative else value

    def end(self):
        """A number or an infinity, with its signs."""
        negative, _ = self.signs()
        where = self.where()
        if self.is_infinity():
            self.take()
            value = lp.INFINITE
        elif self.kind() == "number":
            value = lp.end_number(self.take(), where)
        else:
            what = f"{self.text()!r}" if self.kind() else "the end"
            raise Complaint(f"{where}: a number should stand there, and here is {what}")
        return -value if negative else value


class Reader:
    """What was read of a file so far."""

    def __init__(self):
        self.program, self.columns, self.low_said, self.row_names = lp.Program(), {}, set(), set()

    def column(self, name):
        if name not in self.columns:
            self.columns[name] = len(self.columns)
            self.program.variables.append(lp.Variable(name))
        return self.columns[name]

    def variable(self, name):
        return self.program.variables[self.column(name)]

    def form(self, tokens):
        """A linear form: its factors and its constant. A term without a sign begins what comes behind."""
        factors, constant, is_first = {}, lp.decimal.Decimal(0), True
        while tokens.kind() in ("sign", "number", "name"):
            negative, count = tokens.signs()
            if not count and not is_first:
                break
            where, value = tokens.where(), lp.decimal.Decimal(1)
            has_number = tokens.kind() == "number"
            if has_number:
                value = lp.number(tokens.take(), where)
            value = -value if negative else value
            if tokens.kind() == "name" and tokens.kind(1) != "colon":
                column = self.column(tokens.take())
                factors[column] = lp.fitted(factors.get(column, 0) + value, where)
            elif has_number:
                constant = lp.fitted(constant + value, where)
            else:
                raise Complaint(f"{where}: a sign stands before nothing")
            is_first = False
        return factors, constant

    def goal(self, tokens):
        goal = self.program.goals[0]
        goal.name = tokens.label()
        goal.costs, goal.constant = self.form(tokens)
        if tokens.kind():
            raise Complaint(f"{tokens.where()}: {tokens.text()!r} doesn't go on with the goal; a sign is wanting, or Subject To")

    def goals(self, tokens):
        """Several goals: those of greater priority first, and one of those that have the same, in which each counts by its weight."""
        levels = {}
        while tokens.kind():
            goal, said = self.one_goal(tokens)
            levels.setdefault(said["priority"], []).append((goal, said["weight"]))
        if not levels:
            raise Complaint("it has no goal, and several are announced")
        maximise = self.program.goals[0].maximise
        self.program.goals = [joined(levels[priority], maximise) for priority in sorted(levels, reverse=True)]

    def one_goal(self, tokens):
        """A goal of several, and what its words say of it."""
        where, goal, said = tokens.where(), lp.Goal(tokens.label()), dict(GOAL_WORDS)
        if not goal.name:
            raise Complaint(f"{where}: each of several goals begins with its name and a colon, and here is {tokens.text()!r}")
        while tokens.kind() == "name" and tokens.kind(1) == "relation":
            word = tokens.take().lower()
            if word not in said or tokens.relation() != "=":
                raise Complaint(f"{where}: {word[:40]} is nothing that a goal says of itself; there are Priority, Weight, AbsTol and RelTol")
            said[word] = tokens.number()
        self.find_tolerance(goal, said, where)
        if tokens.kind(1) != "colon":
            goal.costs, goal.constant = self.form(tokens)
        if tokens.kind() and tokens.kind(1) != "colon":
            raise Complaint(f"{tokens.where()}: {tokens.text()!r} doesn't go on with the goal {goal.name}; a sign is wanting, or Subject To")
        return goal, said

    def find_tolerance(self, goal, said, where):
        for word in ("abstol", "reltol"):
            if abs(said[word]) > UNMEANT:
                raise Complaint(f"{where}: the goal {goal.name} may be missed by {said[word]} ({word}), and goals are exact here; leave that out")
            if said[word]:
                self.program.notes.append(f"{goal.name}: its {word} {said[word]} is taken as 0, since goals are exact")

    def rows(self, tokens):
        while tokens.kind():
            self.row(tokens)

    def row(self, tokens):
        where, row = tokens.where(), lp.Row(tokens.label())
        if row.name and row.name in self.row_names:
            raise Complaint(f"{where}: a second row {row.name}")
        self.row_names.add(row.name)
        ends = []
        if self.begins_with_end(tokens):
            ends.append((tokens.end(), tokens.relation()))
        row.factors, constant = self.form(tokens)
        if not ends or tokens.kind() == "relation":
            relation = tokens.relation()
            ends.append((tokens.end(), {"<": ">", ">": "<", "=": "="}[relation]))
        self.set_row(row, ends, constant, where)
        self.program.rows.append(row)

    def begins_with_end(self, tokens):
        """Whether a number or an infinity stands there alone, with a relation behind it."""
        at = tokens.at
        tokens.signs()
        found = (tokens.kind() == "number" or tokens.is_infinity()) and tokens.kind(1) == "relation"
        tokens.at = at
        return found

    def set_row(self, row, ends, constant, where):
        """A row's ends, of numbers that stand so to it: below it, above it, or equal."""
        if not row.factors:
            raise Complaint(f"{where}: a row has no variable")
        for value, relation in ends:
            value = lp.total(value, -constant, where)
            if relation in "<=" and row.low is None:
                row.low = lp.lower_end(value, where)
            if relation in ">=" and row.high is None:
                row.high = lp.upper_end(value, where)
        if len(ends) == 2 and (ends[0][1] == ends[1][1] or "=" in (ends[0][1], ends[1][1])):
            raise Complaint(f"{where}: of two ends one is a lower and one an upper one: 1 <= x + y <= 5")

    def bounds(self, tokens):
        while tokens.kind():
            self.bound(tokens)

    def bound(self, tokens):
        where, ends = tokens.where(), []
        if self.begins_with_end(tokens):
            ends.append((tokens.end(), tokens.relation()))
        if tokens.kind() != "name":
            what = f"{tokens.text()!r}" if tokens.kind() else "the end"
            raise Complaint(f"{tokens.where()}: a variable should stand there, and here is {what}")
        variable = self.variable(tokens.take())
        if not ends and tokens.kind() == "name" and tokens.text().lower() == "free":
            tokens.take()
            variable.low = variable.high = None
            self.low_said.add(variable.name)
            return
        if not ends or tokens.kind() == "relation":
            relation = tokens.relation()
            ends.append((tokens.end(), {"<": ">", ">": "<", "=": "="}[relation]))
        for value, relation in ends:
            if relation in "<=":
                variable.low = lp.lower_end(value, where)
                self.low_said.add(variable.name)
            if relation in ">=":
                variable.high = lp.upper_end(value, where)

    def whole(self, tokens):
        for name in self.names(tokens):
            self.variable(name).whole = True

    def binary(self, tokens):
        for name in self.names(tokens):
            variable = self.variable(name)
            variable.whole, variable.low, variable.high = True, lp.decimal.Decimal(0), lp.decimal.Decimal(1)

    def semi(self, tokens):
        for name in self.names(tokens):
            self.variable(name).zero = True

    def names(self, tokens):
        while tokens.kind():
            if tokens.kind() != "name":
                raise Complaint(f"{tokens.where()}: names of variables stand there, and here is {tokens.text()!r}")
            yield tokens.take()

    def finish(self, has_end):
        notes = self.program.notes
        below = [v for v in self.program.variables if v.high is not None and v.high < 0 and v.name not in self.low_said]
        if below:
            others = f" and {len(below) - 1} more" if len(below) > 1 else ""
            notes.append(f"{below[0].name}{others}: an upper end below 0 and the lower end 0 of a variable of which none is said, so there is no value")
        if not has_end:
            notes.append("it ends without End, so a part may be missing")
        return self.program


def joined(goals, maximise):
    """The goal that goals of one priority are: one alone is itself, turned round where its weight is below 0."""
    if len(goals) == 1:
        goal, weight = goals[0]
        goal.maximise = maximise if weight >= 0 else not maximise
        return goal if weight else lp.Goal(goal.name, maximise)
    made, where = lp.Goal(" and ".join(goal.name for goal, _ in goals), maximise), "goals of one priority, by their weights"
    for goal, weight in goals:
        made.constant = lp.fitted(made.constant + weight * goal.constant, where)
        for column, cost in goal.costs.items():
            made.costs[column] = lp.fitted(made.costs.get(column, 0) + weight * cost, where)
    return made


def read(text, _):
    """The program of a text."""
    reader, sections = Reader(), sections_of(text)
    kinds = [section for section, _ in sections]
    if not kinds:
        raise Complaint("it isn't CPLEX's LP format: nothing stands in it")
    if kinds[0] not in GOALS:
        raise Complaint("it isn't CPLEX's LP format: Minimize or Maximize comes first")
    if kinds[1:2] != ["rows"]:
        raise Complaint("it isn't CPLEX's LP format: Subject To comes behind the goal")
    if {*GOALS, "rows"} & set(kinds[2:]):
        raise Complaint("it has a second goal, or Subject To twice")
    reader.program.goals[0].maximise = kinds[0].startswith("max")
    take = {kind: reader.goals if "several" in kind else reader.goal for kind in GOALS}
    take |= {"rows": reader.rows, "bounds": reader.bounds, "whole": reader.whole, "binary": reader.binary, "semi": reader.semi}  # fmt: skip
    for section, tokens in sections:
        if section != "end":
            take[section](Tokens(tokens))
        elif tokens:
            raise Complaint(f"line {tokens[0][2]}: something stands behind End")
    return reader.finish(kinds[-1] == "end")
