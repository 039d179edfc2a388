"""What an instance says, read from its OSiL document (`docs/rules/instances.md`). Numbers are exact."""

from __future__ import annotations

import re
from fractions import Fraction
from typing import Optional, Sequence, Union
from xml.parsers import expat

from .errors import NotInstance
from .limits import MOST_COLUMNS, MOST_GOALS, MOST_VALUES

NUMBER = re.compile(r"[+-]?(?:\d+\.?\d*|\.\d+)(?:[eE][+-]?\d+)?")
DEEPEST = 32


class Element:
    """An element: its local name, its attributes, its child elements, and the characters that stand in it."""

    def __init__(self, name: str, attributes: dict[str, str]):
        self.name, self.attributes, self.text = name, attributes, ""
        self.children: list[Element] = []

    def find(self, *names: str) -> Optional[Element]:
        """The first element at a path, or none."""
        at: Optional[Element] = self
        for name in names:
            at = next((child for child in at.children if child.name == name), None) if at else None
        return at

    def all(self, name: str) -> list[Element]:
        return [child for child in self.children if child.name == name]


def tree_of(data: Union[str, bytes], what: str, root: str) -> Element:
    """The root element of a document, which has this name."""
    parser, top = expat.ParserCreate(), Element("", {})
    stack = [top]

    def begin(name: str, attributes: dict[str, str]) -> None:
        if len(stack) > DEEPEST:
            raise NotInstance(f"it isn't {what}: its elements stand more than {DEEPEST} deep")
        element = Element(name.rsplit(":", 1)[-1], attributes)
        stack[-1].children.append(element)
        stack.append(element)

    def refuse(*_: object) -> None:
        raise NotInstance(f"it isn't {what}: it has a document type")

    def add(text: str) -> None:
        stack[-1].text += text

    parser.buffer_text = True
    parser.StartElementHandler, parser.EndElementHandler = begin, lambda _: stack.pop()
    parser.CharacterDataHandler, parser.StartDoctypeDeclHandler = add, refuse
    try:
        parser.Parse(data, True)
    except expat.ExpatError as error:
        raise NotInstance(f"it isn't {what}: line {error.lineno}, column {error.offset + 1}: {expat.ErrorString(error.code)}") from error
    except LookupError as error:
        raise NotInstance(f"it isn't {what}: {error}") from error
    found = top.children[0]
    if found.name != root:
        raise NotInstance(f"it isn't {what}: its root is {found.name}, not {root}")
    return found


def decimal(text: str, what: str) -> Fraction:
    text = text.strip()
    if not NUMBER.fullmatch(text) or len(text) > 400 or abs(int((text.lower().partition("e")[2] or "0"))) > 400:
        raise NotInstance(f"{what} is {text[:40]!r}, which is no number that a server takes")
    return Fraction(text)


def bound(text: str, what: str) -> Optional[Fraction]:
    return None if text.strip() in ("INF", "+INF", "-INF") else decimal(text, what)


def count(text: str, what: str) -> int:
    if not re.fullmatch(r"\s*\+?\d{1,18}\s*", text):
        raise NotInstance(f"{what} is {text[:40]!r}, which is no count")
    return int(text)


class Column:
    """A variable, or the activity of a row: its name, which may be empty, its ends (none where there is none), whether it is whole, and
    whether it may be 0 besides."""

    def __init__(self, name: str, low: Optional[Fraction], high: Optional[Fraction], whole: bool = False, zero: bool = False):
        self.name, self.low, self.high, self.whole, self.zero = name, low, high, whole, zero


class Goal:
    """An objective: its name, whether more is better, its constant, and its costs by the variables' numbers."""

    def __init__(self, name: str = "", maximise: bool = False, constant: Fraction = Fraction(0)):
        self.name, self.maximise, self.constant = name, maximise, constant
        self.costs: dict[int, Fraction] = {}

    def change(self, step: Sequence[Fraction]) -> Fraction:
        return sum((cost * step[j] for j, cost in self.costs.items()), Fraction(0))

    def turned(self, value: Fraction) -> Fraction:
        """The value as one of which less is better, without the constant."""
        return self.constant - value if self.maximise else value - self.constant


class Instance:
    """An instance. Its columns are the variables and then the rows; a row's factors are by the variables' numbers. Without an objective it
    has one that is 0."""

    def __init__(self) -> None:
        self.name, self.description = "", ""
        self.variables: list[Column] = []
        self.rows: list[Column] = []
        self.goals: list[Goal] = []
        self.factors: list[dict[int, Fraction]] = []

    # of the first objective
    goal = property(lambda self: self.goals[0].name)
    maximise = property(lambda self: self.goals[0].maximise)
    constant = property(lambda self: self.goals[0].constant)
    costs = property(lambda self: self.goals[0].costs)

    def columns(self) -> list[Column]:
        return self.variables + self.rows

    def activity(self, row: int, point: Sequence[Fraction]) -> Fraction:
        return sum((factor * point[j] for j, factor in self.factors[row].items()), Fraction(0))


def repeated(element: Element, length: int, most: int, what: str) -> int:
    """How many an element stands for, where there are so many before it."""
    times = count(element.attributes.get("mult", "1"), "a mult")
    if length + times > most:
        raise NotInstance(f"it is too big: more than {most:,} {what}")
    return times


def name_of(element: Element, k: int) -> str:
    """The name of the one with this number of those for which an element stands."""
    name = element.attributes.get("name", "")
    return f"{name}.{k}" if name and element.attributes.get("mult", "1").strip() != "1" else name


def read_variables(instance: Instance, parts: Element) -> None:
    for element in parts.all("var"):
        kind = element.attributes.get("type", "C")
        low, high = bound(element.attributes.get("lb", "0"), "a lb"), bound(element.attributes.get("ub", "INF"), "a ub")
        if kind == "B":
            low = Fraction(0) if low is None else max(low, Fraction(0))
            high = Fraction(1) if high is None else min(high, Fraction(1))
        for k in range(repeated(element, len(instance.variables), MOST_COLUMNS, "variables")):
            instance.variables.append(Column(name_of(element, k), low, high, kind in "BIJ", kind in "DJ"))


def read_goals(instance: Instance, parts: Optional[Element]) -> None:
    for element in parts.all("obj") if parts else []:
        constant = decimal(element.attributes.get("constant", "0"), "the constant of the goal")
        goal = Goal(element.attributes.get("name", ""), element.attributes.get("maxOrMin", "min") == "max", constant)
        for coef in element.all("coef"):
            column = count(coef.attributes.get("idx", ""), "an idx")
            if column >= len(instance.variables):
                raise NotInstance(f"a cost is of variable {column}, and there are {len(instance.variables)}")
            goal.costs[column] = goal.costs.get(column, Fraction(0)) + decimal(coef.text, "a cost")
        instance.goals += [goal] * repeated(element, len(instance.goals), MOST_GOALS, "objectives")
    instance.goals = instance.goals or [Goal()]


def read_rows(instance: Instance, parts: Optional[Element]) -> None:
    for element in parts.all("con") if parts else []:
        low, high = bound(element.attributes.get("lb", "-INF"), "a lb"), bound(element.attributes.get("ub", "INF"), "a ub")
        constant = decimal(element.attributes.get("constant", "0"), "the constant of a row")
        for k in range(repeated(element, len(instance.rows), MOST_COLUMNS, "rows")):
            ends = [end if end is None else end - constant for end in (low, high)]
            instance.rows.append(Column(name_of(element, k), *ends))
            instance.factors.append({})


def read_list(element: Element, what: str) -> list[Fraction]:
    """The numbers of a list of the matrix."""
    numbers: list[Fraction] = []
    for el in element.all("el"):
        first, step = decimal(el.text, what), decimal(el.attributes.get("incr", "0"), "an incr")
        times = repeated(el, len(numbers), MOST_VALUES + 1, "numbers in a list")
        numbers += [first + k * step for k in range(times)]
    return numbers


def read_matrix(instance: Instance, parts: Optional[Element]) -> None:
    if parts is None or not parts.children:
        return
    by_rows = parts.find("colIdx") is not None
    lists = [parts.find(name) for name in ("start", "colIdx" if by_rows else "rowIdx", "value")]
    if None in lists:
        raise NotInstance("its matrix lacks one of start, colIdx or rowIdx, and value")
    starts, others, values = (read_list(element, f"a number of {element.name}") for element in lists if element)
    lines = len(instance.rows if by_rows else instance.variables)
    if len(starts) != lines + 1 or len(others) != len(values) or starts[0] != 0 or starts[-1] != len(values) or starts != sorted(starts):
        raise NotInstance("the lists of its matrix don't fit each other")
    for line in range(lines):
        for at in range(int(starts[line]), int(starts[line + 1])):
            row, column = (line, int(others[at])) if by_rows else (int(others[at]), line)
            if not (0 <= row < len(instance.rows) and 0 <= column < len(instance.variables)):
                raise NotInstance(f"its matrix has a number at row {row} and variable {column}, and there are none")
            instance.factors[row][column] = instance.factors[row].get(column, Fraction(0)) + values[at]


def read_instance(data: Union[str, bytes]) -> Instance:
    """The instance that a document says."""
    root = tree_of(data, "OSiL", "osil")
    instance, parts, header = Instance(), root.find("instanceData"), root.find("instanceHeader")
    variables = parts.find("variables") if parts else None
    if parts is None or variables is None:
        raise NotInstance("it isn't OSiL: it has no instanceData with variables")
    for name in ("name", "description"):
        element = header.find(name) if header else None
        setattr(instance, name, " ".join(element.text.split()) if element else "")
    read_variables(instance, variables)
    read_goals(instance, parts.find("objectives"))
    read_rows(instance, parts.find("constraints"))
    read_matrix(instance, parts.find("linearConstraintCoefficients"))
    return instance
