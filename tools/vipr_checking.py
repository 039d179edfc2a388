"""Checks VIPR files (Cheung, Gleixner, Steffy, *Verifying integer programming results*, 2017): that their solutions are some, that each
derived constraint follows from those before it, and that the last one shows what the file promises. It knows nothing of this project, and
everything of it is exact."""

import fractions
import re

NUMBER = re.compile(r"[+-]?\d+(?:/[1-9]\d*)?")
LONGEST_NUMBER = 4_000  # characters; Python itself reads 4,300 digits


class Refused(Exception):
    """Why a file isn't taken."""


class Words:
    """The words of a file, one after another."""

    def __init__(self, text):
        lines = [line for line in text.splitlines() if not line.startswith("%")]
        self.words, self.at = " ".join(lines).split(), 0

    def next(self, *wanted):
        if self.at >= len(self.words):
            raise Refused("the file ends early")
        word = self.words[self.at]
        self.at += 1
        if wanted and word not in wanted:
            raise Refused(f"{word[:40]!r} stands where {' or '.join(wanted)} has to")
        return word

    def peek(self):
        return self.words[self.at] if self.at < len(self.words) else ""

    def number(self):
        word = self.next()
        if len(word) > LONGEST_NUMBER or not NUMBER.fullmatch(word):
            raise Refused(f"{word[:40]!r} is no number, or too long")
        return fractions.Fraction(word)

    def count(self, most):
        word = self.next()
        if not re.fullmatch(r"\d{1,9}", word) or int(word) > most:
            raise Refused(f"{word[:40]!r} is no count, or too great")
        return int(word)

    def numbers(self, most):
        """Numbers by indices below a limit, no index twice."""
        found = {}
        for _ in range(self.count(10**9)):
            index = self.count(most - 1) if most else self.count(-1)
            if index in found:
                raise Refused(f"index {index} stands twice")
            found[index] = self.number()
        return {index: value for index, value in found.items() if value}


class Constraint:
    """Factors, a sense (`G`, `L` or `E`), a right side, and the assumptions that it rests on."""

    def __init__(self, factors, sense, right, assumptions=frozenset(), is_assumption=False):
        self.factors, self.sense, self.right, self.assumptions, self.is_assumption = factors, sense, right, assumptions, is_assumption

    def is_false(self):
        return not self.factors and ((self.sense != "L" and self.right > 0) or (self.sense != "G" and self.right < 0))

    def gives(self, other):
        """Whether whatever keeps this one keeps the other."""
        if self.is_false():
            return True
        if self.factors != other.factors or self.sense not in (other.sense, "E"):
            return False
        if other.sense == "E":
            return self.right == other.right
        return self.right >= other.right if other.sense == "G" else self.right <= other.right

    def is_kept_by(self, point):
        value = sum((factor * point.get(j, 0) for j, factor in self.factors.items()), fractions.Fraction(0))
        return {"G": value >= self.right, "L": value <= self.right, "E": value == self.right}[self.sense]


class File:
    """A file as it is read and checked."""

    def __init__(self, text):
        self.words, self.constraints, self.best = Words(text), [], None

    def check(self):
        self.read_program()
        self.read_promise()
        self.check_solutions()
        self.check_derivations()
        if self.words.peek():
            raise Refused("something stands behind the last derivation")
        return self.conclude()

    def read_program(self):
        words = self.words
        words.next("VER")
        words.next("1.0", "1.1")
        words.next("VAR")
        self.size = words.count(10**7)
        for _ in range(self.size):
            words.next()
        words.next("INT")
        self.whole = {words.count(self.size - 1) for _ in range(words.count(self.size))}
        words.next("OBJ")
        self.is_maximum = words.next("min", "max") == "max"
        self.costs = words.numbers(self.size)
        words.next("CON")
        count = words.count(10**7)
        words.count(count)  # how many are bounds: told for those who want it
        for _ in range(count):
            self.constraints.append(self.read_constraint())

    def read_constraint(self):
        words = self.words
        words.next()
        sense, right = words.next("G", "L", "E"), words.number()
        if words.peek() == "OBJ":
            words.next()
            return Constraint(self.costs, sense, right)
        return Constraint(words.numbers(self.size), sense, right)

    def read_promise(self):
        words = self.words
        words.next("RTP")
        self.is_infeasible, self.range = words.next("infeas", "range") == "infeas", None
        if not self.is_infeasible:
            self.range = [self.read_end() for _ in range(2)]

    def read_end(self):
        if self.words.peek() in ("-inf", "inf"):
            self.words.next()
            return None
        return self.words.number()

    def check_solutions(self):
        words = self.words
        words.next("SOL")
        for _ in range(words.count(10**6)):
            name = words.next()
            point = words.numbers(self.size)
            if any(point[j].denominator != 1 for j in self.whole & point.keys()):
                raise Refused(f"solution {name} isn't whole where it has to be")
            broken = [index for index, constraint in enumerate(self.constraints) if not constraint.is_kept_by(point)]
            if broken:
                raise Refused(f"solution {name} breaks constraint {broken[0]}")
            value = sum((cost * point.get(j, 0) for j, cost in self.costs.items()), fractions.Fraction(0))
            if self.best is None or (value > self.best if self.is_maximum else value < self.best):
                self.best = value

    def check_derivations(self):
        words = self.words
        words.next("DER")
        for _ in range(words.count(10**7)):
            constraint = self.read_constraint()
            words.next("{")
            reason = words.next("asm", "lin", "rnd", "uns", "sol")
            index = len(self.constraints)
            if reason == "asm":
                constraint.assumptions, constraint.is_assumption = frozenset([index]), True
            else:
                shown = getattr(self, f"by_{reason}")(constraint)
                if not shown.gives(constraint):
                    raise Refused(f"constraint {index} doesn't follow by {reason}")
                constraint.assumptions = shown.assumptions
            words.next("}")
            if not re.fullmatch(r"-1|\d{1,9}", last := words.next()):
                raise Refused(f"{last[:40]!r} is no last use")
            self.constraints.append(constraint)

    def known(self):
        return self.constraints[self.words.count(len(self.constraints) - 1)]

    def by_lin(self, wanted):
        """The combination of constraints, in the sense that is wanted."""
        factors, right, assumptions = {}, fractions.Fraction(0), frozenset()
        sense = "G" if wanted.sense == "G" or (not wanted.factors and wanted.right > 0 and wanted.sense != "L") else wanted.sense
        for index, multiplier in self.words.numbers(len(self.constraints)).items():
            used = self.constraints[index]
            side = used.sense if multiplier > 0 or used.sense == "E" else {"G": "L", "L": "G"}[used.sense]
            if side not in (sense, "E"):
                raise Refused(f"constraint {index} has the wrong sense for multiplier {multiplier} of constraint {len(self.constraints)}")
            for j, factor in used.factors.items():
                factors[j] = factors.get(j, 0) + multiplier * factor
            right += multiplier * used.right
            assumptions |= used.assumptions
        return Constraint({j: factor for j, factor in factors.items() if factor}, sense, right, assumptions)

    def by_rnd(self, wanted):
        shown = self.by_lin(wanted)
        if shown.sense == "E" or any(j not in self.whole or factor.denominator != 1 for j, factor in shown.factors.items()):
            raise Refused(f"what constraint {len(self.constraints)} rounds isn't whole at each point")
        shown.right = fractions.Fraction(-(-shown.right // 1) if shown.sense == "G" else shown.right // 1)
        return shown

    def by_uns(self, wanted):
        """Of two cases that are all there are, what both give, without the assumptions of the two."""
        first, below, second, above = (self.known() for _ in range(4))
        if not (below.is_assumption and above.is_assumption and {below.sense, above.sense} == {"L", "G"}):
            raise Refused(f"constraint {len(self.constraints)} is freed of what are no two assumptions")
        low, high = (below, above) if below.sense == "L" else (above, below)
        is_whole = all(j in self.whole and factor.denominator == 1 for j, factor in low.factors.items()) and low.right.denominator == 1
        if not is_whole or low.factors != high.factors or high.right != low.right + 1:
            raise Refused(f"constraint {len(self.constraints)} is freed of two cases that aren't all there are")
        if not (first.gives(wanted) and second.gives(wanted)):
            raise Refused(f"constraint {len(self.constraints)} doesn't follow in both cases")
        left = (first.assumptions - below.assumptions) | (second.assumptions - above.assumptions)
        return Constraint(wanted.factors, wanted.sense, wanted.right, left)

    def by_sol(self, _):
        if self.best is None:
            raise Refused(f"constraint {len(self.constraints)} rests on a solution, and there is none")
        return Constraint(self.costs, "G" if self.is_maximum else "L", self.best)

    def conclude(self):
        last = self.constraints[-1] if self.constraints else Constraint({}, "G", fractions.Fraction(0))
        if self.is_infeasible:
            if not last.is_false() or last.assumptions:
                raise Refused("the last constraint doesn't show that there is no solution")
            return "infeasible"
        low, high = self.range
        reached, proved, sense = (low, high, "L") if self.is_maximum else (high, low, "G")
        if reached is not None and (self.best is None or (self.best < reached if self.is_maximum else self.best > reached)):
            raise Refused(f"no solution reaches {reached}")
        if proved is not None and (last.assumptions or not last.gives(Constraint(self.costs, sense, proved))):
            raise Refused(f"the last constraint doesn't show that no solution is beyond {proved}")
        return f"range {'-inf' if low is None else low} {'inf' if high is None else high}"


def verdict(text):
    """`verified` with what is shown, or `refused` with the reason."""
    try:
        return f"verified {File(text).check()}"
    except Refused as error:
        return f"refused: {error}"
