"""The driver for MiniZinc: what `clients/minizinc/gubnatris_fzn` runs.

    gubnatris_fzn [-a] [-s] [-v] [-t MILLISECONDS] FILE.fzn

It reads FlatZinc as MiniZinc writes it with its library for linear solvers, and answers as FlatZinc solvers do (The MiniZinc Handbook,
FlatZinc and FlatZinc builtins; Interfacing Solvers to MiniZinc). Integers are taken as they are written, and floats to 15
digits.
"""

from __future__ import annotations

import re
import signal
import sys
import time
from decimal import Decimal
from fractions import Fraction
from typing import NamedTuple, Optional, Union

from .errors import BadModel, Error, TimedOut
from .exact import exact
from .model import Model, Variable
from .options import MOST_NODES, MOST_TURNS
from .program import solver
from .results import Result

MOST_FILE = 64_000_000
TOKEN = re.compile(
    r'(?P<space>[ \t\r\n]+|%[^\n]*)|(?P<number>-?\d+(?:\.\d+(?:[eE][+-]?\d+)?|[eE][+-]?\d+)?)|(?P<name>[A-Za-z_]\w*)|(?P<text>"[^"\n]*")'
    r"|(?P<sign>::|\.\.|[][(){},:;=])"
)
FLOAT_DIGITS = 15  # so many of any decimal a float holds; MiniZinc computes in floats and writes 16, 8.8 as 8.800000000000001
MOST_PIECES = 1_000  # of a set that a variable is to be in
# Rows by the names of constraints: how the sum of their terms stands to the number, and whether they have factors.
ROWS = {
    "int_lin_eq": ("=", True), "int_lin_le": ("<", True), "float_lin_eq": ("=", True), "float_lin_le": ("<", True),
    "bool_lin_eq": ("=", True), "bool_lin_le": ("<", True), "int_eq": ("=", False), "int_le": ("<", False), "float_eq": ("=", False),
    "float_le": ("<", False), "bool_eq": ("=", False), "bool_le": ("<", False),
}  # fmt: skip
TIES = ("int2float", "bool2int")


class BadFlat(Error):
    """A file is no FlatZinc of a linear program; the text says where and why."""


Value = Union[Fraction, bool, str, "FlatVariable", list["Value"], None]


class FlatVariable:
    """A variable of FlatZinc: its type, its ends, the values of its set where these have gaps, and its column; one that is tied to another
    one has the other's column."""

    def __init__(self, name: str, kind: str, low: Optional[Fraction], high: Optional[Fraction]):
        self.name, self.kind, self.low, self.high = name, kind, low, high
        self.values: list[Fraction] = []
        self.tied: Optional[FlatVariable] = None
        self.column: Optional[Variable] = None
        self.form: Optional[Form] = None

    def root(self) -> FlatVariable:
        at = self
        while at.tied:
            at = at.tied
        return at

    def value_at(self, values: tuple[Fraction, ...]) -> Fraction:
        """Its value where the columns have these."""
        form = self.root().form
        return values[_column(self).number] if form is None else form.constant + sum(factor * it.value_at(values) for it, factor in form.terms)


class Form(NamedTuple):
    """What a variable is that has no column of its own: a sum of others and a constant."""

    terms: list[tuple[FlatVariable, Fraction]]
    constant: Fraction

    def is_whole(self) -> bool:
        """Whether it is whole wherever its variables are."""
        return self.constant.denominator == 1 and all(it.root().kind != "float" and factor.denominator == 1 for it, factor in self.terms)

    def least(self) -> Optional[Fraction]:
        """A number that it isn't below, by the ends of its variables; none where they have none."""
        ends = [(it.root().low if factor > 0 else it.root().high, factor) for it, factor in self.terms if factor]
        return None if any(end is None for end, _ in ends) else self.constant + sum(factor * end for end, factor in ends if end is not None)

    def negative(self) -> Form:
        return Form([(it, -factor) for it, factor in self.terms], -self.constant)


class Output(NamedTuple):
    """What is told of a solution: a variable or an array, with its dimensions and the type of what stands in it."""

    name: str
    value: Value
    dimensions: list[str]
    kind: str


class Tokens:
    """The tokens of a file, one after another, with their lines."""

    def __init__(self, text: str):
        self.found: list[tuple[str, str, int]] = []
        at, line = 0, 1
        while at < len(text):
            token = TOKEN.match(text, at)
            if not token:
                raise BadFlat(f"line {line}: {text[at:at + 20].splitlines()[0]!r} begins nothing that FlatZinc has")
            if token.lastgroup != "space":
                self.found.append((str(token.lastgroup), token.group(), line))
            line += token.group().count("\n")
            at = token.end()
        self.at = 0

    def where(self) -> str:
        return f"line {self.found[min(self.at, len(self.found) - 1)][2]}" if self.found else "line 1"

    def is_over(self) -> bool:
        return self.at >= len(self.found)

    def peek(self, ahead: int = 0) -> str:
        return self.found[self.at + ahead][1] if self.at + ahead < len(self.found) else ""

    def kind(self) -> str:
        return self.found[self.at][0] if not self.is_over() else "end"

    def take(self, wanted: str = "") -> str:
        found = self.peek()
        if self.is_over() or (wanted and found != wanted):
            raise BadFlat(f"{self.where()}: {wanted or 'more'} should stand there, and here is {found[:20] or 'the end'!r}")
        self.at += 1
        return found

    def has(self, wanted: str) -> bool:
        if self.peek() != wanted:
            return False
        self.at += 1
        return True


class Flat:
    """What a FlatZinc file says."""

    def __init__(self, text: str):
        self.tokens, self.names = Tokens(text), dict[str, Value]()
        self.variables: list[FlatVariable] = []
        self.outputs: list[Output] = []
        self.rows: list[tuple[list[tuple[FlatVariable, Fraction]], str, Fraction, str]] = []
        self.sense, self.goal = "", None  # type: str, Value
        while not self.tokens.is_over():
            self.item()
        if not self.sense:
            raise BadFlat("it has no solve item, so a part may be missing")

    def item(self) -> None:
        tokens = self.tokens
        if self.sense:
            raise BadFlat(f"{tokens.where()}: something stands behind the solve item")
        word = tokens.peek()
        if word == "predicate":
            while tokens.take() != ";":
                pass
            return
        {"constraint": self.constraint, "solve": self.solve, "array": self.array, "var": self.variable}.get(word, self.parameter)()
        tokens.take(";")

    # Values

    def number(self) -> Fraction:
        text = self.tokens.take()
        if not re.fullmatch(r"-?\d.*", text):
            raise BadFlat(f"{self.tokens.where()}: a number should stand there, and here is {text[:20]!r}")
        if re.fullmatch(r"-?\d+", text):
            return exact(Decimal(text), self.tokens.where())
        return exact(Decimal(f"{Decimal(text):.{FLOAT_DIGITS}g}"), self.tokens.where())

    def value(self) -> Value:
        """A number, a truth value, a text, a list, a set, or what a name stands for."""
        tokens = self.tokens
        if tokens.kind() == "number":
            found = self.number()
            if tokens.has(".."):
                return [found, self.number()]
            return found
        if tokens.kind() == "text":
            return tokens.take()
        if tokens.peek() in ("[", "{"):
            return self.list_of({"[": "]", "{": "}"}[tokens.take()])
        name = tokens.take()
        if name in ("true", "false"):
            return Fraction(int(name == "true"))
        if name not in self.names:
            raise BadFlat(f"{tokens.where()}: there is no {name[:40]}")
        found_value = self.names[name]
        if tokens.has("["):
            at = self.number()
            tokens.take("]")
            if not isinstance(found_value, list) or not 1 <= at <= len(found_value):
                raise BadFlat(f"{tokens.where()}: {name[:40]} has no {at}")
            return found_value[int(at) - 1]
        return found_value

    def list_of(self, close: str) -> list[Value]:
        found: list[Value] = []
        while not self.tokens.has(close):
            found.append(self.value())
            if self.tokens.peek() != close:
                self.tokens.take(",")
        return found

    def annotations(self) -> dict[str, list[str]]:
        """The annotations by their names, with the texts that stand in them."""
        found: dict[str, list[str]] = {}
        while self.tokens.has("::"):
            words = found.setdefault(self.tokens.take(), [])
            if self.tokens.has("("):
                depth = 1
                while depth:
                    word = self.tokens.take()
                    depth += {"(": 1, ")": -1}.get(word, 0)
                    words.append(word)
        return found

    def keep(self, name: str, value: Value) -> None:
        if name in self.names:
            raise BadFlat(f"{self.tokens.where()}: a second {name[:40]}")
        self.names[name] = value

    # Items

    def kind_of(self) -> tuple[str, Optional[Fraction], Optional[Fraction], list[Fraction]]:
        """A type: its name, its ends, and the values of a set with gaps."""
        tokens = self.tokens
        if tokens.peek() in ("bool", "int", "float"):
            word = tokens.take()
            return word, *((Fraction(0), Fraction(1)) if word == "bool" else (None, None)), []
        if tokens.has("{"):
            values = sorted({self.as_number(it) for it in self.list_of("}")})
            if not 0 < len(values) <= MOST_PIECES:
                raise BadFlat(f"{tokens.where()}: a set of {len(values)} values, and 1 to {MOST_PIECES:,} can be said")
            return "int", values[0], values[-1], values
        if tokens.kind() != "number":
            raise BadFlat(f"{tokens.where()}: {tokens.peek()[:20]!r} is no type of a linear program")
        is_float = not re.fullmatch(r"-?\d+", tokens.peek())
        low = self.number()
        tokens.take("..")
        return "float" if is_float else "int", low, self.number(), []

    def variable(self) -> None:
        tokens = self.tokens
        tokens.take("var")
        kind, low, high, values = self.kind_of()
        tokens.take(":")
        made = FlatVariable(tokens.take(), kind, low, high)
        made.values = values
        self.variables.append(made)
        self.keep(made.name, made)
        if "output_var" in self.annotations():
            self.outputs.append(Output(made.name, made, [], kind))
        if tokens.has("="):
            self.row([(made, Fraction(1)), (self.value(), Fraction(-1))], "=", Fraction(0), "its value")

    def array(self) -> None:
        tokens = self.tokens
        for word in ("array", "["):
            tokens.take(word)
        while tokens.take() != "]":
            pass
        tokens.take("of")
        words = []
        while tokens.peek() != ":":
            words.append(tokens.take())
        tokens.take(":")
        name, told = tokens.take(), self.annotations()
        value = self.value() if tokens.has("=") else None
        if not isinstance(value, list):
            raise BadFlat(f"{tokens.where()}: the array {name[:40]} has no values")
        self.keep(name, None if "set" in words else value)
        if "output_array" in told:
            if not all(isinstance(it, (FlatVariable, Fraction)) for it in value):
                raise BadFlat(f"{tokens.where()}: the array {name[:40]} is to be told, and has what is no number and no variable")
            dimensions = "".join(word for word in told["output_array"] if word not in "[]()").split(",")
            self.outputs.append(Output(name, value, dimensions, "bool" if "bool" in words else "float" if "float" in words else "int"))

    def parameter(self) -> None:
        tokens = self.tokens
        if tokens.peek() not in ("bool", "int", "float", "set"):
            raise BadFlat(f"{tokens.where()}: {tokens.peek()[:20]!r} begins no item of FlatZinc")
        while not tokens.has(":"):
            tokens.take()
        name = tokens.take()
        self.annotations()
        tokens.take("=")
        self.keep(name, self.value())

    def solve(self) -> None:
        self.tokens.take("solve")
        self.annotations()
        self.sense = self.tokens.take()
        if self.sense not in ("satisfy", "minimize", "maximize"):
            raise BadFlat(f"{self.tokens.where()}: {self.sense[:20]!r} is nothing to solve")
        if self.sense != "satisfy":
            goal = self.value()
            self.goal = goal if isinstance(goal, FlatVariable) else self.as_number(goal)

    def constraint(self) -> None:
        tokens = self.tokens
        tokens.take("constraint")
        where, name = tokens.where(), tokens.take()
        if name not in ROWS and name not in TIES:
            raise BadFlat(f"{where}: the constraint {name[:40]} isn't linear; a model that MiniZinc writes for linear solvers has none of it")
        tokens.take("(")
        arguments = self.list_of(")")
        self.annotations()
        if name in TIES and len(arguments) == 2 and all(isinstance(it, FlatVariable) for it in arguments):
            self.tie(*arguments)
            return
        relation, has_factors = ROWS.get(name, ("=", False))
        if len(arguments) != (3 if has_factors else 2):
            raise BadFlat(f"{where}: {name} has {len(arguments)} arguments")
        if not has_factors:
            self.row([(arguments[0], Fraction(1)), (arguments[1], Fraction(-1))], relation, Fraction(0), name)
            return
        factors, terms, side = arguments
        if not isinstance(factors, list) or not isinstance(terms, list) or len(factors) != len(terms):
            raise BadFlat(f"{where}: the lists of {name} don't fit each other")
        self.row([(term, self.as_number(factor)) for factor, term in zip(factors, terms)], relation, self.as_number(side), name)

    def tie(self, whole: Value, other: Value) -> None:
        """Makes one column of two variables that are always equal; it has the ends of both, and the first one's type."""
        assert isinstance(whole, FlatVariable) and isinstance(other, FlatVariable)
        root, tied = whole.root(), other.root()
        if root is tied:
            return
        tied.tied = root
        root.low = max((end for end in (root.low, tied.low) if end is not None), default=None)
        root.high = min((end for end in (root.high, tied.high) if end is not None), default=None)

    def as_number(self, value: Value) -> Fraction:
        if not isinstance(value, Fraction):
            raise BadFlat(f"{self.tokens.where()}: a number should stand there, and here is {'a variable' if isinstance(value, FlatVariable) else 'none'}")
        return value

    def row(self, terms: list[tuple[Value, Fraction]], relation: str, side: Fraction, name: str) -> None:
        """A row, whose terms may be numbers too."""
        found: list[tuple[FlatVariable, Fraction]] = []
        for term, factor in terms:
            if isinstance(term, FlatVariable):
                found.append((term, factor))
            else:
                side -= factor * self.as_number(term)
        self.rows.append((found, relation, side, name))

    # The model

    def model(self) -> Model:
        self.define_goal()
        model = Model()
        for it in self.variables:
            if it.tied is None and it.form is None:
                it.column = model.variable(it.name, it.low, it.high, whole=it.kind != "float")
        for it in self.variables:
            it.column = it.root().column
            if it.values and it.values[-1] - it.values[0] != len(it.values) - 1:
                _add_choice(model, it)
        for terms, relation, side, name in self.rows:
            model.row([(_column(it), factor) for it, factor in terms], side if relation == "=" else None, side, name)
        if self.sense != "satisfy":
            form = self.goal_form()
            goal = model.maximise if self.sense == "maximize" else model.minimise
            goal([(_column(it), factor) for it, factor in form.terms], form.constant, "goal")
        return model

    def goal_form(self) -> Form:
        if not isinstance(self.goal, FlatVariable):
            return Form([], self.as_number(self.goal))
        return self.goal.root().form or Form([(self.goal, Fraction(1))], Fraction(0))

    def define_goal(self) -> None:
        """Takes the goal's variable out, where one equation alone has it: MiniZinc makes a variable of each goal, and searches take much longer
        over an equation that has as many terms as the goal. Its ends stay as rows where those of its terms don't imply them."""
        goal = self.goal.root() if isinstance(self.goal, FlatVariable) else None
        holding = [row for row in self.rows if any(it.root() is goal for it, _ in row[0])]
        if goal is None or len(holding) != 1 or holding[0][1] != "=" or any(it.values and it.root() is goal for it in self.variables):
            return
        terms, _, side, name = holding[0]
        own = sum((factor for it, factor in terms if it.root() is goal), Fraction(0))
        form = Form([(it, -factor / own) for it, factor in terms if it.root() is not goal], side / own) if own else None
        if form is None or (goal.kind != "float" and not form.is_whole()):
            return
        goal.form = form
        self.rows.remove(holding[0])
        for each, end in ((form.negative(), None if goal.low is None else -goal.low), (form, goal.high)):
            least = each.negative().least()
            if end is not None and (least is None or -least > end):
                self.rows.append((each.terms, "<", end - each.constant, name))


def _column(variable: FlatVariable) -> Variable:
    assert variable.column is not None
    return variable.column


def _add_choice(model: Model, variable: FlatVariable) -> None:
    """Of a set with gaps: a 0-1 variable for each value, of which one is 1."""
    ones = [model.variable(f"{variable.name} is {value}", 0, 1, whole=True) for value in variable.values]
    model.row([(one, 1) for one in ones], 1, 1, f"{variable.name} is one")
    model.row([*zip(ones, variable.values), (_column(variable), -1)], 0, 0, f"{variable.name} is which")


def shown(told: Value, kind: str, values: tuple[Fraction, ...]) -> str:
    """A variable's value, or a number, as FlatZinc has what is of this type: of a float a float, of a bool true or false."""
    value = told.value_at(values) if isinstance(told, FlatVariable) else told
    assert isinstance(value, Fraction)
    if kind == "bool":
        return "true" if value else "false"
    return str(value) if kind == "int" and value.denominator == 1 else repr(float(value))


def solution(flat: Flat, values: tuple[Fraction, ...]) -> list[str]:
    lines = []
    for output in flat.outputs:
        if isinstance(output.value, list):
            inside = ", ".join(shown(it, output.kind, values) for it in output.value)
            lines.append(f"{output.name} = array{len(output.dimensions)}d({', '.join(output.dimensions)}, [{inside}]);")
        else:
            lines.append(f"{output.name} = {shown(output.value, output.kind, values)};")
    return [*lines, "----------"]


def answer(flat: Flat, result: Optional[Result]) -> list[str]:
    """The lines that are told of a result."""
    status = result.status if result else "unsure"
    if result and result.values is not None and status in ("optimal", "bestSoFar"):
        is_proved = status == "optimal" and flat.sense != "satisfy"
        return solution(flat, result.values) + ["=========="] * is_proved
    words = {"infeasible": "UNSATISFIABLE", "unbounded": "UNBOUNDED"}
    return [f"====={words.get(status, 'UNKNOWN')}====="]


def statistics(model: Model, flat: Flat, result: Optional[Result], seconds: tuple[float, float]) -> list[str]:
    told: dict[str, object] = {"initTime": f"{seconds[0]:.3f}", "solveTime": f"{seconds[1]:.3f}"}
    told |= {"variables": len(model.variables), "propagators": len(model.rows)}
    if result:
        told["nSolutions"] = int(result.status in ("optimal", "bestSoFar"))
        told |= {"nodes": sum(not node.startswith("level") for node in result.tree)} if result.tree else {}
        told |= {"cause": f'"{result.cause}"'} if result.cause else {}
        for name, value in (("objective", result.objective), ("objectiveBound", result.bound)):
            if value is not None and flat.sense != "satisfy":
                told[name] = repr(float(value))
    return [*(f"%%%mzn-stat: {name}={value}" for name, value in told.items()), "%%%mzn-stat-end"]


class Asked:
    """What the driver's words ask for."""

    def __init__(self, words: list[str]):
        self.file, self.flags, self.seconds = "", set[str](), None  # type: str, set[str], Optional[float]
        at = iter(words)
        for word in at:
            if word == "-t":
                text = next(at, "")
                if not re.fullmatch(r"\d{1,12}(\.\d*)?", text):
                    raise BadFlat(f"-t {text[:20]!r}: the time is a count of milliseconds")
                self.seconds = float(text) / 1000
            elif word in ("-a", "-s", "-v"):
                self.flags.add(word)
            elif word.startswith("-") or self.file:
                raise BadFlat(f"there is no option {word[:40]!r}; there are -a, -s, -v and -t MILLISECONDS, and one file")
            else:
                self.file = word
        if not self.file:
            raise BadFlat("no file is named")


def read_flat(path: str) -> Flat:
    try:
        with open(path, "rb") as file:
            data = file.read(MOST_FILE + 1)
    except OSError as failure:
        raise BadFlat(f"it can't be read: {failure.strerror}") from failure
    if len(data) > MOST_FILE:
        raise BadFlat(f"it has more than {MOST_FILE:,} bytes")
    try:
        return Flat(data.decode("utf-8-sig"))
    except UnicodeDecodeError as failure:
        raise BadFlat(f"it is no text: byte {failure.start + 1} isn't UTF-8") from failure
    except RecursionError as failure:
        raise BadFlat("its lists stand too deep in each other") from failure


def run(asked: Asked, begun: float) -> list[str]:
    """The lines that answer a file."""
    flat = read_flat(asked.file)
    model = flat.model()
    ready = time.monotonic()
    left = None if asked.seconds is None else max(asked.seconds - (ready - begun), 0.0)
    try:
        result: Optional[Result] = solver().solve(model, node_limit=MOST_NODES, turn_limit=MOST_TURNS, seconds=left)
    except TimedOut:
        result = None
    lines = answer(flat, result)
    if "-a" in asked.flags and "-v" in asked.flags:
        lines.insert(0, "% of a problem without a goal one solution is told, and of others the best one")
    if "-s" in asked.flags:
        lines += statistics(model, flat, result, (ready - begun, time.monotonic() - ready))
    return lines


def main(words: Optional[list[str]] = None, name: str = "gubnatris_fzn") -> int:
    """Runs the driver; its status: 0 where it has an answer, and 1 where it has none, which it then says as MiniZinc has it."""
    begun = time.monotonic()
    signal.signal(signal.SIGTERM, signal.default_int_handler)  # MiniZinc's way to end a solver: what was started is ended
    words = sys.argv[1:] if words is None else words
    file = next((word for word in reversed(words) if not word.startswith("-")), "")
    try:
        print("\n".join(run(Asked(words), begun)))
        return 0
    except KeyboardInterrupt:
        print("=====UNKNOWN=====")
        return 0
    except (BadFlat, BadModel) as failure:
        print(f"{name}: {file}: {failure}", file=sys.stderr)
    except (Error, ValueError) as failure:
        print(f"{name}: {failure}", file=sys.stderr)
    print("=====ERROR=====")
    return 1
