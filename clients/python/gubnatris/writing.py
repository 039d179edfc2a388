"""The OSiL text of a linear or mixed-integer program (`docs/rules/instances.md`)."""

from __future__ import annotations

import re
from typing import Iterable, NamedTuple, Optional

NO_XML = re.compile("[^\t\n\r\u0020-\ud7ff\ue000-\ufffd\U00010000-\U0010ffff]")


# What stands for these characters in XML. `xml.sax.saxutils` has it too, but imports what calls servers by their URLs, TLS with it, and a
# driver is begun anew for each model.
_TEXT = str.maketrans({"&": "&amp;", "<": "&lt;", ">": "&gt;"})
_VALUE = _TEXT | str.maketrans({'"': "&quot;", "\t": "&#9;", "\n": "&#10;", "\r": "&#13;"})


def escaped(text: str) -> str:
    """A text as it stands between tags."""
    return text.translate(_TEXT)


def quoted(text: str) -> str:
    """A text as the value of an attribute."""
    return f'"{text.translate(_VALUE)}"'


class VariableText(NamedTuple):
    """A variable: its name, its type (C, I, D or J), and its ends as decimals, none where there is none."""

    name: str
    kind: str
    low: Optional[str]
    high: Optional[str]


class GoalText(NamedTuple):
    """A goal: its name, whether more is better, its constant, and its costs by variables, as decimals."""

    name: str
    maximise: bool
    constant: str
    costs: list[tuple[int, str]]


class RowText(NamedTuple):
    """A row: its name, its ends, and its factors by variables, in their order, as decimals."""

    name: str
    low: Optional[str]
    high: Optional[str]
    factors: list[tuple[int, str]]


def osil_text(name: str, variables: list[VariableText], goals: list[GoalText], rows: list[RowText]) -> str:
    """The document."""
    parts = [
        '<?xml version="1.0" encoding="UTF-8"?>\n<osil xmlns="os.optimizationservices.org">\n',
        f"<instanceHeader><name>{escaped(name)}</name></instanceHeader>\n<instanceData>\n",
        f'<variables numberOfVariables="{len(variables)}">\n',
        *(f"<var{_named(it.name)} type=\"{it.kind}\"{_ends(it.low, it.high)}/>\n" for it in variables),
        f'</variables>\n<objectives numberOfObjectives="{len(goals)}">\n',
        *map(_goal, goals),
        f'</objectives>\n<constraints numberOfConstraints="{len(rows)}">\n',
        *(f"<con{_named(it.name)}{_ends(it.low, it.high)}/>\n" for it in rows),
        "</constraints>\n",
        _matrix(rows),
        "</instanceData>\n</osil>\n",
    ]
    return "".join(parts)


def _named(name: str) -> str:
    return f" name={quoted(name)}" if name else ""


def _ends(low: Optional[str], high: Optional[str]) -> str:
    return f' lb="{"-INF" if low is None else low}" ub="{"INF" if high is None else high}"'


def _goal(goal: GoalText) -> str:
    constant = f' constant="{goal.constant}"' if goal.constant != "0" else ""
    head = f'<obj maxOrMin="{"max" if goal.maximise else "min"}"{_named(goal.name)}{constant} numberOfObjCoef="{len(goal.costs)}">\n'
    return head + "".join(f'<coef idx="{column}">{cost}</coef>\n' for column, cost in goal.costs) + "</obj>\n"


def _matrix(rows: list[RowText]) -> str:
    """The matrix by rows."""
    starts, columns, values = [0], [], []
    for row in rows:
        columns += [column for column, _ in row.factors]
        values += [factor for _, factor in row.factors]
        starts.append(len(values))
    lists = _list("start", starts) + _list("colIdx", columns) + _list("value", values) if values else ""
    return f'<linearConstraintCoefficients numberOfValues="{len(values)}">\n{lists}</linearConstraintCoefficients>\n'


def _list(name: str, numbers: Iterable[object]) -> str:
    return f"<{name}>\n" + "".join(f"<el>{number}</el>\n" for number in numbers) + f"</{name}>\n"
