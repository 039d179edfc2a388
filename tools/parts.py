"""Parts of a program with whole variables, and what shows of the whole what was found of them (`docs/rules/certificates.md`).

A part is the same instance with tighter ends, by branches: a whole variable is at most k, or at least k + 1; a variable that may be 0
besides is 0, or between its own ends. The trees of two such parts, behind a node that says the branch, are a tree of both.
"""

import fractions
import re
from typing import NamedTuple, Optional

from gubnatris.instances import Column, Instance

ZERO = fractions.Fraction(0)
WIDEST = 2**127 - 1
MOST_END = 10**15  # that the end of a row of a part's own has over and under its fraction line
LEVEL = re.compile(r"level \d+")
# leaves, with how many words stand before their multipliers, and what they are called where they name rows alone
LEAVES = {"farkas": (0, "farkasRows"), "bound": (0, "boundRows"), "grid": (1, "gridRows")}


class Wide(Exception):
    """A number passes 128 bits."""


class Branch(NamedTuple):
    """A variable that is divided: at a whole number, or into 0 and its own ends."""

    column: int
    value: Optional[int]

    def node(self):
        return f"zero {self.column}" if self.value is None else f"split {self.column} {self.value}"


def fitted(number):
    if abs(number.numerator) > WIDEST or number.denominator > WIDEST:
        raise Wide(f"{str(number)[:40]}.. passes 128 bits")
    return number


def decimal_text(number):
    """The decimal that a number is, without an exponent."""
    places, size = 0, fitted(abs(number))
    while (size * 10**places).denominator != 1:
        places += 1
    digits = str((size * 10**places).numerator).rjust(places + 1, "0")
    text = digits if places == 0 else f"{digits[:-places]}.{digits[-places:]}"
    return "-" + text if number < 0 else text


def cut_text(number, most=12):
    """A number for people: cut towards zero behind so many decimals."""
    size, scale = abs(number), 10**most
    whole, rest = divmod(size.numerator * scale // size.denominator, scale)
    text = f"{whole}.{rest:0{most}}".rstrip("0").rstrip(".")
    return "-" + text if number < 0 and text != "0" else text


# ---- the variables of a part


def with_branch(variables, branch, side):
    """The variables in the first case of a branch, or in the second."""
    it = variables[branch.column]
    if branch.value is None:
        new = Column("", it.low, it.high, it.whole) if side else Column("", ZERO, ZERO, it.whole)
    elif side:
        low = fractions.Fraction(branch.value + 1)
        new = Column("", low if it.low is None else max(it.low, low), it.high, it.whole, it.zero)
    else:
        high = fractions.Fraction(branch.value)
        new = Column("", it.low, high if it.high is None else min(it.high, high), it.whole, it.zero)
    return [*variables[: branch.column], new, *variables[branch.column + 1 :]]


def with_branches(variables, branches):
    """The variables behind branches, each with its case."""
    for branch, side in branches:
        variables = with_branch(variables, branch, side)
    return variables


def relaxed(it):
    """A variable without its wholeness, one that may be 0 besides between its relaxed ends."""
    return Column("", it.low and min(it.low, ZERO), it.high and max(it.high, ZERO)) if it.zero else Column("", it.low, it.high)


def is_own(column, value):
    """Whether a value lies between a variable's own ends."""
    return (column.low is None or column.low <= value) and (column.high is None or value <= column.high)


def branch_at(variables, point):
    """The branch that a search makes at a point: of the least variable whose value isn't as it must be; none where all are."""
    for place, (it, value) in enumerate(zip(variables, point)):
        if it.zero and value != 0 and not is_own(it, value):
            return Branch(place, None)
        if it.whole and value.denominator != 1:
            return Branch(place, value.numerator // value.denominator)
    return None


def is_divisible(variables):
    return any(it.whole or it.zero for it in variables)


# ---- goals


def turned(goal, value):
    """A value as one of which less is better."""
    return -value if goal.maximise else value


def values_at(instance, point):
    return tuple(goal.constant + sum((cost * point[j] for j, cost in goal.costs.items()), ZERO) for goal in instance.goals)


def turned_values(instance, values):
    return tuple(turned(goal, value) for goal, value in zip(instance.goals, values))


# ---- the text of a part


def end_text(end, infinite):
    return infinite if end is None else decimal_text(end)


def listed(name, numbers):
    return f"<{name}>" + "".join(f"<el>{number}</el>" for number in numbers) + f"</{name}>"


def variable_text(it):
    kind = ("J" if it.zero else "I") if it.whole else ("D" if it.zero else "C")
    return f'<var type="{kind}" lb="{end_text(it.low, "-INF")}" ub="{end_text(it.high, "INF")}"/>'


def goal_text(goal):
    costs = "".join(f'<coef idx="{j}">{decimal_text(cost)}</coef>' for j, cost in sorted(goal.costs.items()) if cost)
    return f'<obj maxOrMin="{"max" if goal.maximise else "min"}" constant="{decimal_text(goal.constant)}">{costs}</obj>'


def rows_text(rows):
    """Rows, each with its factors."""
    ends = "".join(f'<con lb="{end_text(row.low, "-INF")}" ub="{end_text(row.high, "INF")}"/>' for row, _ in rows)
    starts, columns, values = [0], [], []
    for _, factors in rows:
        used = sorted(j for j, factor in factors.items() if factor)
        columns += used
        values += [decimal_text(factors[j]) for j in used]
        starts.append(len(values))
    matrix = listed("start", starts) + listed("colIdx", columns) + listed("value", values) if values else ""
    return f"<constraints>{ends}</constraints><linearConstraintCoefficients>{matrix}</linearConstraintCoefficients>"


class Writer:
    """Writes the instances of parts. What all have in common is made once, and so are the variables that a part has from the whole."""

    def __init__(self, instance: Instance):
        self.variables = instance.variables
        self.texts = {False: list(map(variable_text, self.variables)), True: [variable_text(relaxed(it)) for it in self.variables]}
        self.goals = [goal_text(goal) for goal in instance.goals]
        self.rows = list(zip(instance.rows, instance.factors))
        self.rest = rows_text(self.rows)

    def text(self, variables, is_relaxed=False, goals=None, cutoff=None):
        """The instance with these variables, as they are or relaxed, with its first so many goals where not with all, and with a cutoff where there
        is one."""
        kept = zip(variables, self.variables, self.texts[is_relaxed])
        rest = rows_text([*self.rows, cutoff[:2]]) if cutoff else self.rest
        return (
            '<osil xmlns="os.optimizationservices.org"><instanceData><variables>'
            + "".join([text if it is of_whole else variable_text(relaxed(it) if is_relaxed else it) for it, of_whole, text in kept])
            + f"</variables><objectives>{''.join(self.goals[:goals])}</objectives>{rest}</instanceData></osil>"
        )


# ---- nodes


def levels_of(items):
    """The nodes of each tree of a result."""
    levels = [[]]
    for item in items:
        if LEVEL.fullmatch(item):
            levels.append([])
        else:
            levels[-1].append(item)
    return levels


def ruled_out(node, column):
    """A leaf for the program with one row more, the goal between two ends that are better than what a bound or a grid leaf shows: no point is
    there. The ends are those of a point, so a whole number of a grid's steps, and its low sum passes them before it is rounded up."""
    kind, *words = node.split(" ")
    of_rows, whole = kind.endswith("Rows"), kind.removesuffix("Rows")
    if whole not in ("bound", "grid"):
        return node
    return " ".join(["farkasRows" if of_rows else "farkas", *words[LEAVES[whole][0] :], f"{column}:-1"])


def of_rows_alone(node, variables):
    """A leaf of so many variables without their multipliers, which are what those of its rows leave."""
    kind, *words = node.split(" ")
    if kind not in LEAVES:
        return node
    first, name = LEAVES[kind]
    return " ".join([name, *words[:first], *(pair for pair in words[first:] if int(pair.partition(":")[0]) >= variables)])


# ---- a part of which nothing is asked but what is no worse than a point


class Cutoff(NamedTuple):
    """A row that excludes points by their goal: its end, its factors, and how many times the costs these are."""

    row: Column
    factors: dict
    size: int


def cutoff_of(instance, value):
    """The row that excludes what is worse than a value, less being better, of an instance with one goal; none where no row says it or it needs long
    numbers."""
    goal = instance.goals[0]
    end, costs = value - turned(goal, goal.constant), {j: turned(goal, cost) for j, cost in goal.costs.items() if cost}
    if len(instance.goals) > 1 or not costs or abs(end.numerator) > MOST_END or end.denominator > MOST_END:
        return None
    return Cutoff(Column("", None, fractions.Fraction(end.numerator)), {j: cost * end.denominator for j, cost in costs.items()}, end.denominator)


def without_cutoff(node, column, size):
    """A node of a program with such a row as this column, as one without it, that shows no less up to the row's end; none where there is no such.

    A leaf's form is that of its other multipliers, less k times the costs, where k is the size times the row's own multiplier, turned. So the
    others have a form of k times the costs where the leaf is a Farkas, and of 1 + k times the costs where it is a Bound or a Grid. Divided by
    that they are a Bound, or a Grid, whose low sum is above the row's end in the first case, and not below the lesser of that end and the
    leaf's own low sum in the second."""
    kind, *words = node.split(" ")
    whole = kind.removesuffix("Rows")
    if whole not in LEAVES:
        return None if words[0] == str(column) else node
    first = LEAVES[whole][0]
    pairs = [pair.partition(":") for pair in words[first:]]
    if not pairs or pairs[-1][0] != str(column):
        return node
    weight = -size * fractions.Fraction(pairs[-1][2]) + (whole != "farkas")
    told = [f"{c}:{fitted(fractions.Fraction(multiplier) / weight)}" for c, _, multiplier in pairs[:-1]]
    return " ".join([kind.replace("farkas", "bound"), *words[:first], *told])


# ---- the result of the whole


def items_text(name, items):
    return f'<otherSolutionResult name="os_cert.{name}">' + "".join(f"<item>{item}</item>" for item in items) + "</otherSolutionResult>"


def dual_values(instance, tree):
    """The multipliers of rows, for people, where the tree is one leaf."""
    if len(instance.goals) != 1 or len(tree) != 1 or tree[0].split(" ")[0] not in ("bound", "boundRows"):
        return ""
    pairs = [pair.partition(":") for pair in tree[0].split(" ")[1:]]
    count = len(instance.variables)
    rows = "".join(f'<con idx="{int(c) - count}">{cut_text(fractions.Fraction(m))}</con>' for c, _, m in pairs if int(c) >= count)
    return f"<constraints><dualValues>{rows}</dualValues></constraints>" if rows else ""


class Claim(NamedTuple):
    """What is claimed of the whole: its status, a point or none, a ray or none, a bound or none, a tree for each level, and a cause."""

    status: str
    point: Optional[tuple] = None
    ray: Optional[tuple] = None
    bound: Optional[fractions.Fraction] = None
    trees: tuple = ()
    cause: Optional[str] = None

    def by_rows(self, variables):
        """The claim by leaves that name rows alone."""
        return self._replace(trees=tuple([of_rows_alone(node, variables) for node in tree] for tree in self.trees))


def result_text(instance, claim: Claim):
    """The result document of a claim (`docs/rules/results.md`)."""
    solution = f'<status type="{claim.status}"/>'
    parts = ""
    if claim.point is not None:
        values = values_at(instance, claim.point)
        solution += "<variables><values>" + "".join(f'<var idx="{j}">{cut_text(x)}</var>' for j, x in enumerate(claim.point)) + "</values></variables>"
        solution += "<objectives><values>" + "".join(f'<obj idx="-{k}">{cut_text(v)}</obj>' for k, v in enumerate(values, 1)) + "</values></objectives>"
        parts += items_text("point", claim.point) + items_text("value", values)
    if claim.status == "optimal":
        solution += dual_values(instance, claim.trees[0])
    parts += items_text("ray", claim.ray) if claim.ray is not None else ""
    parts += items_text("bound", [claim.bound]) if claim.bound is not None else ""
    nodes = [item for level, tree in enumerate(claim.trees, 1) for item in ([f"level {level}"] * (level > 1) + list(tree))]
    parts += items_text("tree", nodes) if nodes else ""
    parts += items_text("cause", [claim.cause]) if claim.cause else ""
    return (
        '<?xml version="1.0" encoding="UTF-8"?><osrl xmlns="os.optimizationservices.org"><general><generalStatus type="normal"/></general>'
        f"<job><status>finished</status></job><optimization><solution>{solution}<otherSolutionResults>{parts}</otherSolutionResults>"
        "</solution></optimization></osrl>"
    )

