"""A model: variables, rows and goals whose numbers are exact, and its OSiL text.

A document has decimals alone. A row with a fraction that is no decimal, as 1/3, is written times the least whole number that makes
decimals of all its numbers, and so is a goal; a result is read back with the model's own numbers. An end of a variable that is no decimal
is rounded inwards where the variable is whole, and else is a row of its own.
"""

from __future__ import annotations

import math
from fractions import Fraction
from typing import Iterable, Mapping, NamedTuple, Optional, Union

from .errors import BadModel
from .exact import Number, decimal_text, exact, lower_end, rest_of, scale_of, upper_end
from .instances import Column, Goal, Instance
from .limits import MOST_COLUMNS, MOST_DOCUMENT, MOST_GOALS, MOST_VALUES
from .writing import NO_XML, GoalText, RowText, VariableText, osil_text


class Variable(Column):
    """A variable of a model: its number from 0, its name, its ends, whether it is whole, and whether it may be 0 besides its range."""

    def __init__(self, model: Model, number: int, name: str, low: Optional[Fraction], high: Optional[Fraction], whole: bool, zero: bool):
        super().__init__(name, low, high, whole, zero)
        self.model, self.number = model, number

    def __repr__(self) -> str:
        return f"Variable({self.name or f'x{self.number}'!r})"


Terms = Union[Mapping[Variable, Number], Iterable[tuple[Variable, Number]]]


class EndRow(NamedTuple):
    """A row that stands for ends of a variable: whose, and times what."""

    variable: int
    scale: int


class Written(NamedTuple):
    """A model's text, by what its rows and goals are multiplied there, and the rows behind its own."""

    text: str
    row_scales: list[int]
    goal_scales: list[int]
    end_rows: list[EndRow]


class Model:
    """A model.

    >>> model = Model("bread and milk")
    >>> bread, milk = model.variable("bread", high=8), model.variable("milk", whole=True)
    >>> _ = model.row({bread: 1, milk: Fraction(1, 3)}, low=4, name="energy")
    >>> model.minimise({bread: 0.12, milk: 0.05}, name="cost")
    """

    def __init__(self, name: str = ""):
        self.instance = Instance()
        self.instance.name = _named(name, "the model")

    @property
    def variables(self) -> list[Column]:
        return self.instance.variables

    @property
    def rows(self) -> list[Column]:
        return self.instance.rows

    def variable(
        self, name: str = "", low: Optional[Number] = 0, high: Optional[Number] = None, *, whole: bool = False, or_zero: bool = False
    ) -> Variable:
        """A new variable. Ends that are None or infinite aren't there. `or_zero`: it may be 0 besides its range (semi-continuous)."""
        number = len(self.variables)
        where = f"variable {name or number}"
        made = Variable(self, number, _named(name, where), lower_end(low, where), upper_end(high, where), whole, or_zero)
        self.variables.append(made)
        return made

    def row(self, terms: Terms, low: Optional[Number] = None, high: Optional[Number] = None, name: str = "") -> Column:
        """A new row: the sum of its terms, variables with factors, lies between its ends. Terms of one variable add up."""
        where = f"row {name or len(self.rows)}"
        made = Column(_named(name, where), lower_end(low, where), upper_end(high, where))
        factors = self._sum(terms, where)
        self.rows.append(made)
        self.instance.factors.append(factors)
        return made

    def minimise(self, terms: Terms, constant: Number = 0, name: str = "") -> None:
        """A goal: less of this is better. The first goal counts first, the next among the points that are best so far, and so on."""
        self._goal(terms, constant, name, False)

    def maximise(self, terms: Terms, constant: Number = 0, name: str = "") -> None:
        """A goal: more of this is better."""
        self._goal(terms, constant, name, True)

    def osil(self) -> str:
        """The OSiL text. Raises `BadModel` where it can't be said."""
        return self.written().text

    def written(self) -> Written:
        """The OSiL text, and how its numbers differ from the model's."""
        instance = self.instance
        values = sum(map(len, instance.factors))
        for found, most, what in (
            (len(self.variables), MOST_COLUMNS, "variables"),
            (len(instance.goals), MOST_GOALS, "goals"),
            (values, MOST_VALUES, "values in the rows"),
        ):
            if found > most:
                raise BadModel(f"too big: {found:,} {what}, and {most:,} are the most")
        end_rows: list[EndRow] = []
        rows = [_row_text(row, factors, f"row {row.name or i}") for i, (row, factors) in enumerate(zip(self.rows, instance.factors))]
        variables = [self._variable_text(j, variable, end_rows, rows) for j, variable in enumerate(self.variables)]
        if len(rows) > MOST_COLUMNS:
            raise BadModel(f"too big: {len(rows):,} rows, and {MOST_COLUMNS:,} are the most")
        goals = [_goal_text(goal, f"goal {goal.name or k}") for k, goal in enumerate(instance.goals)]
        text = osil_text(instance.name, variables, [goal for goal, _ in goals], [row for row, _ in rows])
        if len(text.encode()) > MOST_DOCUMENT:
            raise BadModel(f"too big: its OSiL has {len(text.encode()):,} bytes, and {MOST_DOCUMENT:,} are the most; shorter names help")
        return Written(text, [scale for _, scale in rows[: len(self.rows)]], [scale for _, scale in goals], end_rows)

    def _sum(self, terms: Terms, where: str) -> dict[int, Fraction]:
        """Terms by the numbers of their variables, without those that are 0."""
        found: dict[int, Fraction] = {}
        for variable, factor in terms.items() if isinstance(terms, Mapping) else terms:
            if not isinstance(variable, Variable) or variable.model is not self:
                raise BadModel(f"{where}: {variable!r} is no variable of this model")
            found[variable.number] = found.get(variable.number, Fraction(0)) + exact(factor, f"{where}, {variable.name or variable.number}")
        return {j: factor for j, factor in sorted(found.items()) if factor}

    def _goal(self, terms: Terms, constant: Number, name: str, maximise: bool) -> None:
        where = f"goal {name or len(self.instance.goals)}"
        goal = Goal(_named(name, where), maximise, exact(constant, where))
        goal.costs = self._sum(terms, where)
        self.instance.goals.append(goal)

    def _variable_text(self, j: int, variable: Column, end_rows: list[EndRow], rows: list[tuple[RowText, int]]) -> VariableText:
        """A variable as it is written; where an end is no decimal, a row that has its ends may be added."""
        where, low, high = f"variable {variable.name or j}", variable.low, variable.high
        if variable.whole:
            low, high = None if low is None else Fraction(math.ceil(low)), None if high is None else Fraction(math.floor(high))
        elif any(end is not None and rest_of(end.denominator) != 1 for end in (low, high)):
            if variable.zero:
                raise BadModel(f"{where}: an end of a variable that may be 0 besides is a decimal, and here is {low} to {high}")
            row, scale = _row_text(Column("", low, high), {j: Fraction(1)}, where)
            rows.append((row, scale))
            end_rows.append(EndRow(j, scale))
            low = high = None
        kind = {(False, False): "C", (True, False): "I", (False, True): "D", (True, True): "J"}[variable.whole, variable.zero]
        return VariableText(variable.name, kind, _end_text(low, where), _end_text(high, where))


def _named(name: str, where: str) -> str:
    """A name, which has only characters that XML has."""
    if not isinstance(name, str):
        raise BadModel(f"{where}: its name is {name!r}, which is no text")
    wrong = NO_XML.search(name)
    if wrong:
        raise BadModel(f"{where}: its name has the character {wrong.group()!r}, which no document can hold")
    return name


def _end_text(end: Optional[Fraction], where: str) -> Optional[str]:
    return None if end is None else decimal_text(end, where)


def _row_text(row: Column, factors: dict[int, Fraction], where: str) -> tuple[RowText, int]:
    """A row as it is written, and times what."""
    scale = scale_of([*factors.values(), *(end for end in (row.low, row.high) if end is not None)])
    low, high = (None if end is None else end * scale for end in (row.low, row.high))
    written = [(j, decimal_text(factor * scale, where)) for j, factor in factors.items()]
    return RowText(row.name, _end_text(low, where), _end_text(high, where), written), scale


def _goal_text(goal: Goal, where: str) -> tuple[GoalText, int]:
    """A goal as it is written, and times what."""
    scale = scale_of([*goal.costs.values(), goal.constant])
    costs = [(j, decimal_text(cost * scale, where)) for j, cost in goal.costs.items()]
    return GoalText(goal.name, goal.maximise, decimal_text(goal.constant * scale, where), costs), scale
