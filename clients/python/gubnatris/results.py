"""What a result document says (`docs/rules/results.md`), and what follows from it and its instance."""

from __future__ import annotations

import csv
import dataclasses
import io
import json
import re
import xml.etree.ElementTree as ElementTree
from dataclasses import dataclass, field
from fractions import Fraction
from functools import cached_property
from typing import TYPE_CHECKING, NamedTuple, Optional, Union

from .errors import NoReply, NotFinished, NotInstance, Refused
from .instances import Column
from .sources import Given, Source, source_of
from .trees import below, local, parsed, text_in

if TYPE_CHECKING:
    from .program import Program

LONGEST_RATIO = 80  # a sign, 39 digits, a slash and 39 digits: 128 bits each
CERTIFICATE = "os_cert."
_RATIO = re.compile(r"(0|-?[1-9][0-9]*)|(-?[1-9][0-9]*)/((?!1$)[1-9][0-9]*)")
_REFUSAL = re.compile(r"(os[iorp]l) ([A-Z]\w*)(?: at (\d+))?(?: (.+))?", re.S)
_STATES = ("unknown", "issued", "waiting", "running", "killed", "finished")
_PARTS = {  # what a result's certificate has, by its status
    "optimal": ("point", "value", "tree"),
    "infeasible": ("tree",),
    "unbounded": ("point", "value", "ray"),
    "bestSoFar": ("point", "value", "cause"),
    "unsure": ("cause",),
}


class Slack(NamedTuple):
    """How far a row is from its lower and from its upper end; None where there is no such end."""

    lower: Optional[Fraction]
    upper: Optional[Fraction]


@dataclass(frozen=True)
class Result:
    """What a finished job's document says.

    `status`: `optimal`, `infeasible`, `unbounded`, `bestSoFar` or `unsure`. `values`: one number for each variable, and `objective`,
    what they are worth, where there is a point: with `optimal`, `unbounded` and `bestSoFar`. `ray`: with `unbounded`, the direction
    in which the objective gets better without end. `cause`: with `bestSoFar` and `unsure`, what ended the search, as
    `nodeLimit 10000`. `tree`: with `optimal`, `infeasible` and a bound of a search that ended early, the nodes of the tree of cases, in
    preorder; where there are several objectives, `level L` and the nodes of the next tree. `document`: the text. `objectives`: where there is
    a point, what it is worth by each objective, in order; `objective` is the first of them. `bound`: a number that no point's first
    objective is better than: with `optimal` the objective, with `bestSoFar` and `unsure` what the document has, or None. `source`: the
    instance, where it is known; what needs it says so. `message`: what the document says in words, as why a result that was handed in isn't
    the answer.
    """

    status: str
    objective: Optional[Fraction]
    values: Optional[tuple[Fraction, ...]]
    ray: Optional[tuple[Fraction, ...]]
    cause: Optional[str]
    tree: Optional[tuple[str, ...]]
    document: str
    objectives: Optional[tuple[Fraction, ...]] = None
    bound: Optional[Fraction] = None
    source: Optional[Source] = field(default=None, compare=False, repr=False)
    message: str = ""

    def of(self, instance: Given) -> Result:
        """This result as one of an instance: where only the document was at hand."""
        return scaled(self, source_of(instance))

    @cached_property
    def certificate(self) -> dict[str, tuple[str, ...]]:
        """The items of each part of the certificate by its name: `point`, `value`, `ray`, `rounds`, `tree`, `cause`, `bound`."""
        root = parsed(self.document, self.document.encode()) if self.document else ElementTree.Element("osrl")
        parts = below(root, "optimization", "solution", "otherSolutionResults", "otherSolutionResult")
        return {
            (part.get("name") or "").removeprefix(CERTIFICATE): tuple(item.text or "" for item in below(part, "item"))
            for part in parts
            if (part.get("name") or "").startswith(CERTIFICATE)
        }

    @property
    def gap(self) -> Optional[Fraction]:
        """How far the objective may be from the best one, in parts of itself; None where no bound is told, and where the objective is 0."""
        if self.objective is None or self.bound is None:
            return None
        off = abs(self.objective - self.bound)
        return off / abs(self.objective) if self.objective else None if off else Fraction(0)

    @cached_property
    def names(self) -> Optional[tuple[str, ...]]:
        """The names of the variables, from the document where it has them, else from the instance; `x3` of one without a name."""
        return self._names("variables", "var", [column.name for column in self._instance.variables] if self.source else None, "x")

    @cached_property
    def row_names(self) -> Optional[tuple[str, ...]]:
        """The names of the rows, as `names`; `row 3` of one without a name."""
        return self._names("constraints", "con", [column.name for column in self._instance.rows] if self.source else None, "row ")

    def by_name(self) -> dict[str, Fraction]:
        """The values by the names of the variables; of a name that comes twice the last one."""
        return dict(zip(self.names or [f"x{j}" for j in range(len(self.values or ()))], self.values or ()))

    @cached_property
    def duals(self) -> Optional[tuple[Fraction, ...]]:
        """For each row, by how much the objective changes for one more of the end that binds, while the same ends bind: negative where that
        lowers the objective, whether it is minimised or maximised. None where the certificate has cases, rounds or several objectives. Needs
        the instance."""
        leaf = self._leaf
        if leaf is None or self.source is None:
            return None
        first = len(self._instance.variables)
        scales = self.source.row_scales or [1] * len(self._instance.rows)
        return tuple(self._turned(leaf.get(first + i, Fraction(0)) * scale) for i, scale in enumerate(scales))

    @cached_property
    def reduced_costs(self) -> Optional[tuple[Fraction, ...]]:
        """As `duals`, for the ends of each variable."""
        leaf = self._leaf
        if leaf is None or self.source is None:
            return None
        if self._is_of_rows:
            return tuple(map(self._turned, self._left_by_rows(leaf, self.source)))
        count, own_rows = len(self._instance.variables), len(self._instance.rows)
        found = [leaf.get(j, Fraction(0)) for j in range(count)]
        for k, row in enumerate(self.source.end_rows):
            found[row.variable] += leaf.get(count + own_rows + k, Fraction(0)) * row.scale
        return tuple(map(self._turned, found))

    @cached_property
    def activities(self) -> Optional[tuple[Fraction, ...]]:
        """What each row is at the point. Needs the instance."""
        if self.values is None or self.source is None:
            return None
        return tuple(self._instance.activity(i, self.values) for i in range(len(self._instance.rows)))

    @property
    def slacks(self) -> Optional[tuple[Slack, ...]]:
        """How far each row is from its ends. Needs the instance."""
        if self.activities is None:
            return None
        return tuple(
            Slack(None if row.low is None else at - row.low, None if row.high is None else row.high - at)
            for row, at in zip(self._instance.rows, self.activities)
        )

    def check(self, program: Optional[Program] = None) -> str:
        """What the checker says of the certificate, a program on this machine: `accepted optimal`, or `refused` and why. Needs the instance."""
        from .program import Program  # it solves too, and so needs results

        if self.source is None:
            raise NotInstance("the instance of this result isn't known; name it: result.of(instance).check()")
        return (program or Program()).check(self.source.text, self.document)

    def to_json(self, indent: Optional[int] = None) -> str:
        """All of it but the certificate as JSON: each number as the nearest float, and as the exact fraction."""
        found: dict[str, object] = {"status": self.status, "cause": self.cause, "bound": _both(self.bound), "gap": _both(self.gap)}
        found["objectives"] = [{"name": name, "sense": sense, **_both(value)} for name, sense, value in self._goals()]
        found["variables"] = [_json_line(line) for line in self._lines("variable")]
        found["rows"] = [_json_line(line) for line in self._lines("row")]
        return json.dumps(found, indent=indent)

    def to_csv(self) -> str:
        """The objectives, variables and rows as CSV, one a line: floats, and the exact fractions beside them."""
        text = io.StringIO()
        lines = csv.writer(text, lineterminator="\n")
        lines.writerow(["part", "name", "value", "exactly", "lower end", "upper end", "multiplier", "multiplier exactly"])
        for name, _, value in self._goals():
            lines.writerow(["objective", name, *_cells(value), "", "", "", ""])
        for part in ("variable", "row"):
            for line in self._lines(part):
                ends = (_cells(end)[0] for end in (line.low, line.high))
                lines.writerow([part, line.name, *_cells(line.value), *ends, *_cells(line.multiplier)])
        return text.getvalue()

    @property
    def _instance(self):  # type: ignore[no-untyped-def]
        assert self.source is not None
        return self.source.instance

    @cached_property
    def _leaf(self) -> Optional[dict[int, Fraction]]:
        """The multipliers of a certificate that is one leaf without rounds, by columns."""
        nodes = self.tree or ()
        if self.status != "optimal" or len(nodes) != 1 or not nodes[0].startswith("bound") or self.certificate.get("rounds"):
            return None
        pairs = (piece.partition(":") for piece in nodes[0].split(" ")[1:])
        try:
            return {int(column): Fraction(multiplier) for column, _, multiplier in pairs}
        except (ValueError, ZeroDivisionError) as failure:
            raise NoReply(f"no node of a tree: {nodes[0][:60]!r}", self.document.encode()) from failure

    @property
    def _is_of_rows(self) -> bool:
        """Whether that leaf names rows alone, which decide the multipliers of variables."""
        return bool(self.tree) and self.tree[0].split(" ")[0] == "boundRows"

    @staticmethod
    def _left_by_rows(leaf: dict[int, Fraction], source: Source) -> list[Fraction]:
        """What the rows leave of each cost in the minimising form, rows and goal as they were sent."""
        instance = source.instance
        count, scales = len(instance.variables), source.row_scales or [1] * len(instance.rows)
        size = (source.goal_scales or [1])[0] * (-1 if instance.maximise else 1)
        left = [size * instance.costs.get(j, Fraction(0)) for j in range(count)]
        for i, factors in enumerate(instance.factors):
            multiplier = leaf.get(count + i, Fraction(0)) * scales[i]
            for j, factor in factors.items():
                left[j] -= multiplier * factor
        return left

    def _turned(self, multiplier: Fraction) -> Fraction:
        """A multiplier of the minimising form, in the sense of the first goal and its own size."""
        scale = (self.source.goal_scales if self.source else []) or [1]
        return (-multiplier if self._instance.goals and self._instance.maximise else multiplier) / scale[0]

    def _names(self, part: str, element: str, own: Optional[list[str]], front: str) -> Optional[tuple[str, ...]]:
        if f"<{part}>" in self.document and " name=" in self.document:
            root = parsed(self.document, self.document.encode())
            found = {it.get("idx"): it.get("name") for it in below(root, "optimization", "solution", part, "values", element)}
            if found and all(found.values()) and (own is None or len(found) == len(own)):
                return tuple(found.get(str(j)) or f"{front}{j}" for j in range(len(found)))
        return None if own is None else tuple(name or f"{front}{j}" for j, name in enumerate(own))

    def _goals(self) -> list[tuple[str, str, Optional[Fraction]]]:
        """Each goal's name, its sense and its value."""
        goals = self._instance.goals if self.source else []
        told = [(goal.name, "max" if goal.maximise else "min") for goal in goals] or [("", "")] * len(self.objectives or ())
        values = self.objectives or (None,) * len(told)
        return [(name, sense, value) for (name, sense), value in zip(told, values)]

    def _lines(self, part: str) -> list[_Line]:
        """The variables or the rows as they are listed."""
        if part == "variable":
            values, multipliers, names = self.values, self.reduced_costs, self.names
        else:
            values, multipliers, names = self.activities, self.duals, self.row_names
        if values is None:
            return []
        columns = (self._instance.variables if part == "variable" else self._instance.rows) if self.source else [Column("", None, None)] * len(values)
        return [
            _Line((names or ())[k] if names else f"x{k}", value, column.low, column.high, multipliers[k] if multipliers else None)
            for k, (value, column) in enumerate(zip(values, columns))
        ]


class _Line(NamedTuple):
    name: str
    value: Fraction
    low: Optional[Fraction]
    high: Optional[Fraction]
    multiplier: Optional[Fraction]


def _both(value: Optional[Fraction]) -> dict[str, object]:
    return {"value": None if value is None else float(value), "exactly": None if value is None else str(value)}


def _json_line(line: _Line) -> dict[str, object]:
    found: dict[str, object] = {"name": line.name, **_both(line.value), "lowerEnd": _both(line.low)["exactly"], "upperEnd": _both(line.high)["exactly"]}
    return found if line.multiplier is None else {**found, "multiplier": _both(line.multiplier)}


def _cells(value: Optional[Fraction]) -> tuple[str, str]:
    return ("", "") if value is None else (repr(float(value)) if value.denominator != 1 else str(value), str(value))


# ---- reading


def refusal(text: str) -> Optional[Refused]:
    found = _REFUSAL.fullmatch(text)
    if not found:
        return None
    document, name, place, told = found.groups()
    return Refused(text, document, name, None if place is None else int(place), told)


def _report(document: str) -> ElementTree.Element:
    came = document.encode()
    root = parsed(document, came)
    if local(root) != "osrl" or not below(root, "general", "generalStatus"):
        raise NoReply("it is no result document", came)
    return root


def _is_error(root: ElementTree.Element) -> bool:
    return below(root, "general", "generalStatus")[0].get("type") == "error"


def _message(root: ElementTree.Element) -> str:
    return "".join((found.text or "").strip() for found in below(root, "general", "message")[:1])


def state_of(document: str) -> str:
    found = below(_report(document), "job", "status")
    state = (found[0].text or "") if found else ""
    if state not in _STATES:
        raise NoReply(f"no state of a job: {state[:20]!r}", document.encode())
    return state


def document_of(result: Union[str, Result, None]) -> Optional[str]:
    """The text of a result that is handed in."""
    return result.document if isinstance(result, Result) else result


def read_result(document: str) -> Result:
    """What a result document says, of a server or of `os solve`.

    Raises `Refused` where it is that of a refusal, `NotFinished` where the job isn't, `NoReply` where it is no result document.
    """
    return read_of_job(document, "the job")


def read_of_job(document: str, job: str, source: Optional[Source] = None) -> Result:
    came, state, root = document.encode(), state_of(document), _report(document)
    if state != "finished":
        raise NotFinished(job, state)
    if _is_error(root):
        raise refusal(_message(root)) or NoReply(f"an error: {_message(root)[:60]}", came)
    solutions = below(root, "optimization", "solution")
    if not solutions:  # so the rules have it, for want of memory
        return Result("unsure", None, None, None, "memory", None, document, source=source)
    if len(solutions) != 1:
        raise NoReply(f"{len(solutions)} solutions", came)
    status = "".join(found.get("type", "") for found in below(solutions[0], "status")[:1])
    if status not in _PARTS:
        raise NoReply(f"no status of a solution: {status[:20]!r}", came)
    items = {name: _items(solutions[0], name, came) for name in _PARTS[status]}
    point, ray, values = (_ratios(items[name], came) if name in items else None for name in ("point", "ray", "value"))
    if values == ():
        raise NoReply("no item where there is one for each objective", came)
    cause = _one(items["cause"], came) if "cause" in items else None
    bound = values[0] if values and status == "optimal" else None
    if "cause" in items and _parts_named(solutions[0], "bound"):
        bound = _ratios((_one(_items(solutions[0], "bound", came), came),), came)[0]
        items["tree"] = _items(solutions[0], "tree", came)
    found = Result(status, values[0] if values else None, point, ray, cause, items.get("tree"), document, values, bound, message=_message(root))
    return scaled(found, source) if source else found


def _parts_named(solution: ElementTree.Element, name: str) -> list[ElementTree.Element]:
    """The parts of the certificate that have this name."""
    return [it for it in below(solution, "otherSolutionResults", "otherSolutionResult") if it.get("name") == CERTIFICATE + name]


def _items(solution: ElementTree.Element, name: str, came: bytes) -> tuple[str, ...]:
    """The items of one part of the certificate."""
    parts = _parts_named(solution, name)
    if len(parts) != 1:
        raise NoReply(f"{len(parts)} parts os_cert.{name}", came)
    return tuple(text_in(item, came) for item in below(parts[0], "item"))


def _one(items: tuple[str, ...], came: bytes) -> str:
    if len(items) != 1:
        raise NoReply(f"{len(items)} items where there is one", came)
    return items[0]


def _ratio(item: str) -> Optional[Fraction]:
    """An exact number in lowest terms, or None where the text is none."""
    found = _RATIO.fullmatch(item) if len(item) <= LONGEST_RATIO else None
    if not found:
        return None
    whole, above, below = found.groups()
    if whole:
        return Fraction(int(whole))
    number = Fraction(int(above), int(below))
    return number if number.denominator == int(below) else None


def _ratios(items: tuple[str, ...], came: bytes) -> tuple[Fraction, ...]:
    """Exact numbers, in lowest terms."""
    numbers = []
    for item in items:
        number = _ratio(item)
        if number is None:
            raise NoReply(f"no exact number: {item[:20]!r}", came)
        numbers.append(number)
    return tuple(numbers)


def scaled(result: Result, source: Source) -> Result:
    """A result as one of this instance, its objectives in the numbers that were meant."""
    values, bound, scales = result.objectives, result.bound, source.goal_scales
    if values and scales:
        if len(values) != len(scales):
            raise NoReply(f"{len(values)} objectives where there are {len(scales)}", result.document.encode())
        values = tuple(value / scale for value, scale in zip(values, scales))
    if bound is not None and scales:
        bound /= scales[0]
    return dataclasses.replace(result, objective=values[0] if values else result.objective, objectives=values, bound=bound, source=source)
