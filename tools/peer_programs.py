#!/usr/bin/python3
"""Makes the table crates/try_runs/data/peers.txt: small programs, with what z3 (Debian's python3-z3, exact over rational and whole numbers)
says of each: that it has no point, that its goals have no end, or the best values of its goals in their order. Nothing of this repository
is asked. Run at the top of the repository: tools/peer_programs.py > crates/try_runs/data/peers.txt"""
import random
import sys
from fractions import Fraction

import z3

COUNT = 300
FAR = 10**9
HEAD = """# Small programs, and what an exact solver that is no part of this repository says of them: made by tools/peer_programs.py with z3 {0}.
# The text of an instance; the checker's line of what is solved, and where it is optimal the values of the goals."""


def number(rng: random.Random, low: int, high: int) -> Fraction:
    """A whole number, or now and then a decimal with a part of four."""
    whole = Fraction(rng.randint(low, high))
    return whole + Fraction(rng.randint(1, 3), 4) if rng.random() < 0.15 else whole


def decimal(x: Fraction) -> str:
    """Its text in OSiL: quarters at most have two digits behind the point."""
    return str(x.numerator) if x.denominator == 1 else f"{float(x):.2f}".rstrip("0")


class Variable:
    """A variable's type and ends; an end is None where there is none."""

    def __init__(self, rng: random.Random) -> None:
        self.kind = rng.choices("CIBDJ", [50, 27, 8, 8, 7])[0]
        self.low: Fraction | None = Fraction(0)
        self.high: Fraction | None = None
        if self.kind == "B":
            self.high = Fraction(1)
        elif self.kind == "C":
            self.low = rng.choice([Fraction(0), Fraction(0), number(rng, -6, 4), None])
            self.high = rng.choice([None, None, number(rng, 3, 12)])
        else:
            self.low = Fraction(rng.randint(1, 3) if self.kind in "DJ" else rng.randint(-4, 2))
            self.high = number(rng, 4, 9)

    def element(self) -> str:
        """The element that says it."""
        low = "-INF" if self.low is None else decimal(self.low)
        high = "INF" if self.high is None else decimal(self.high)
        return f'<var type="{self.kind}" lb="{low}" ub="{high}"/>'

    def is_within(self, x: z3.ArithRef) -> z3.BoolRef:
        """What it asks of its value."""
        ends = [x >= q(e) for e in [self.low] if e is not None] + [x <= q(e) for e in [self.high] if e is not None]
        inside = z3.And(*ends) if ends else z3.BoolVal(True)
        return z3.Or(x == 0, inside) if self.kind in "DJ" else inside


def q(x: Fraction) -> z3.RatNumRef:
    """A number as z3 has it."""
    return z3.Q(x.numerator, x.denominator)


class Program:
    """Variables, rows (coefficients and ends) and goals (whether the most is asked, a constant, costs)."""

    def __init__(self, seed: int) -> None:
        rng = random.Random(seed)
        self.vars = [Variable(rng) for _ in range(rng.randint(1, 4))]
        width = len(self.vars)
        self.rows = [self.row(rng, width) for _ in range(rng.randint(0, 4))]
        goals = rng.choices([0, 1, 2, 3], [8, 70, 16, 6])[0]
        self.goals = [(rng.random() < 0.5, number(rng, -3, 3), [number(rng, -5, 5) for _ in range(width)]) for _ in range(goals)]

    @staticmethod
    def row(rng: random.Random, width: int) -> tuple[list[Fraction], Fraction | None, Fraction | None]:
        entries = [number(rng, -5, 5) if rng.random() < 0.8 else Fraction(0) for _ in range(width)]
        end = number(rng, -6, 16)
        kind = rng.choice(["low", "high", "high", "equal", "both"])
        if kind == "equal":
            return entries, end, end
        if kind == "both":
            return entries, end - rng.randint(0, 8), end
        return entries, end if kind == "low" else None, end if kind == "high" else None

    def text(self) -> str:
        """The instance's document."""
        parts = ["<variables>", *(v.element() for v in self.vars), "</variables>"]
        if self.goals:
            parts.append("<objectives>")
            for most, constant, costs in self.goals:
                coefs = "".join(f'<coef idx="{j}">{decimal(c)}</coef>' for j, c in enumerate(costs) if c)
                parts.append(f'<obj maxOrMin="{"max" if most else "min"}" constant="{decimal(constant)}">{coefs}</obj>')
            parts.append("</objectives>")
        if self.rows:
            ends = (" ".join(f'{n}="{decimal(e)}"' for n, e in (("lb", low), ("ub", high)) if e is not None) for _, low, high in self.rows)
            parts += ["<constraints>", *(f"<con {e}/>" for e in ends), "</constraints>", self.matrix()]
        return f'<osil><instanceData>{"".join(parts)}</instanceData></osil>'

    def matrix(self) -> str:
        """The rows' entries, by rows."""
        starts, columns, values = [0], [], []
        for entries, _, _ in self.rows:
            for j, x in enumerate(entries):
                if x:
                    columns.append(j)
                    values.append(x)
            starts.append(len(columns))
        if not columns:
            return ""
        lists = (("start", map(str, starts)), ("colIdx", map(str, columns)), ("value", map(decimal, values)))
        inside = "".join(f'<{name}>{"".join(f"<el>{x}</el>" for x in xs)}</{name}>' for name, xs in lists)
        return f"<linearConstraintCoefficients>{inside}</linearConstraintCoefficients>"

    def answer(self) -> str | None:
        """What z3 says of it; None where it says nothing within its time."""
        xs = [z3.ToReal(z3.Int(f"x{j}")) if v.kind in "IBJ" else z3.Real(f"x{j}") for j, v in enumerate(self.vars)]
        asks = [v.is_within(x) for v, x in zip(self.vars, xs)]
        for entries, low, high in self.rows:
            sum_ = z3.Sum([q(a) * x for a, x in zip(entries, xs)])
            asks += [sum_ >= q(low)] if low is not None else []
            asks += [sum_ <= q(high)] if high is not None else []
        values: list[Fraction] = []
        for most, constant, costs in self.goals or [(False, Fraction(0), [Fraction(0)] * len(xs))]:
            best = best_of(asks, z3.Sum([q(c) * x for c, x in zip(costs, xs)]) + q(constant), most)
            if not isinstance(best, Fraction):
                return best
            values.append(best)
            asks.append(z3.Sum([q(c) * x for c, x in zip(costs, xs)]) + q(constant) == q(best))
        return "accepted optimal\\n" + "".join(f"<item>{x}</item>" for x in values)


def is_possible(asks: list[z3.BoolRef]) -> bool | None:
    """Whether all of this can hold at once; None where z3 doesn't know."""
    solver = z3.Solver()
    solver.set(timeout=20_000)
    solver.add(*asks)
    said = solver.check()
    return None if said == z3.unknown else said == z3.sat


def best_of(asks: list[z3.BoolRef], goal: z3.ArithRef, most: bool) -> Fraction | str | None:
    """The best value of a goal where all of this is asked; or a line that says that there is no point, or no end; or None. What z3 finds
    as the best is believed only where it decides besides that it is reached and that nothing is better, since its optimiser isn't exact
    where some variables are whole. Where a goal can pass FAR it has no end: no vertex of so small a program is as far."""
    can = is_possible(asks)
    if not can:
        return "accepted infeasible\\n" if can is False else None
    if is_possible([*asks, goal >= FAR if most else goal <= -FAR]):
        return "accepted unbounded\\n"
    solver = z3.Optimize()
    solver.set(timeout=20_000)
    solver.add(*asks)
    handle = solver.maximize(goal) if most else solver.minimize(goal)
    if solver.check() != z3.sat:
        return None
    end = solver.upper(handle) if most else solver.lower(handle)
    if not z3.is_rational_value(end) and not z3.is_int_value(end):
        return None
    is_reached = is_possible([*asks, goal == end])
    is_passed = is_possible([*asks, goal > end if most else goal < end])
    return Fraction(str(end)) if is_reached and is_passed is False else None


def main() -> int:
    print(HEAD.format(z3.get_version_string()))
    made = seed = 0
    while made < COUNT:
        program = Program(seed)
        answer = program.answer()
        seed += 1
        if answer is None:
            print(f"program {seed - 1}: z3 says nothing", file=sys.stderr)
            continue
        print(f"{program.text()}\t{answer}")
        made += 1
    return 0


if __name__ == "__main__":
    sys.exit(main())
