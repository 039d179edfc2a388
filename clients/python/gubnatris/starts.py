"""The point that a search begins with."""

from __future__ import annotations

from collections.abc import Iterable, Mapping
from fractions import Fraction
from typing import Union

from .errors import NotSent
from .exact import Number, exact
from .model import Variable
from .results import Result
from .sources import Given, names

Start = Union[Result, Mapping[Union[int, str, Variable], Number], Iterable[Number], None]
FirstValues = list[tuple[int, Fraction]]


def first_values(start: Start, instance: Given) -> FirstValues:
    """The values of a start by the numbers of their variables: a result's point, numbers in the order of the variables, or some by a variable,
    its number or its name. Raises `NotSent` where there is no such variable, and `BadModel` where a value is no number."""
    if isinstance(start, Result):
        start = start.values
    if start is None:
        return []
    if not isinstance(start, Mapping):
        return [(number, exact(value, f"start {number}")) for number, value in enumerate(start)]
    named = {name: number for number, name in enumerate(names(instance))} if any(isinstance(key, str) for key in start) else {}
    return sorted((_number_of(key, named), exact(value, f"start {key}")) for key, value in start.items())


def _number_of(key: Union[int, str, Variable], named: dict[str, int]) -> int:
    if isinstance(key, Variable):
        return key.number
    number = named.get(key) if isinstance(key, str) else key
    if number is None:
        raise NotSent(f"{str(key)[:40]!r} is no variable of the instance, and a start gives it a value")
    return number
