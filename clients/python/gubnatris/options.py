"""The options of a search: an OSoL document (`docs/rules/options.md`)."""

from __future__ import annotations

import math
from collections.abc import Iterable
from fractions import Fraction
from typing import Optional, Union

from .errors import BadModel, NotOffered, NotSent
from .exact import Number, exact
from .sources import Source
from .writing import NO_XML, escaped, quoted

MOST_NODES, MOST_TURNS = 1_000_000, 100_000_000  # what an option may set at most

Gap = Union[Number, str, None]


def options_text(
    job: Optional[str] = None,
    node_limit: Optional[int] = None,
    turn_limit: Optional[int] = None,
    rounds: Optional[int] = None,
    names: bool = False,
    form: Optional[str] = None,
    bound: bool = False,
    gap: Optional[str] = None,
    seconds: Optional[float] = None,
    start: Iterable[tuple[int, Fraction]] = (),
    result: Optional[str] = None,
) -> str:
    """The options, or the empty text where there are none. `start`: the first values, by the numbers of their variables. `result`: the result
    document that they hand in."""
    named = f"<jobID>{escaped(job)}</jobID>" if job is not None else ""
    general = f"<general>{named}{_handed_text(result)}</general>" if named or result is not None else ""
    words = [("names", 1 if names else None), ("form", form), ("bound", 1 if bound else None), ("gap", gap)]
    limits = [("nodeLimit", node_limit), ("pivotLimit", turn_limit), ("rounds", rounds), *words]
    set_ones = "".join(f"<solverOption name={quoted(name)} value={quoted(str(limit))}/>" for name, limit in limits if limit is not None)
    limits_set = f"<solverOptions>{set_ones}</solverOptions>" if set_ones else ""
    optimization = _start_text(start) + limits_set
    limited = f"<optimization>{optimization}</optimization>" if optimization else ""
    parts = general + _time_text(seconds) + limited
    return f'<osol xmlns="os.optimizationservices.org">{parts}</osol>' if parts else ""


def _start_text(start: Iterable[tuple[int, Fraction]]) -> str:
    """The element of the values that a search begins with."""
    values = "".join(f'<var idx="{number}" value="{value}"/>' for number, value in start)
    return f"<variables><initialVariableValues>{values}</initialVariableValues></variables>" if values else ""


def _handed_text(result: Optional[str]) -> str:
    """The element that hands in a result. Raises `NotSent` where it has a character that no XML has."""
    if result is None:
        return ""
    wrong = NO_XML.search(result)
    if wrong:
        raise NotSent(f"the result that is handed in has {wrong[0]!r}, which no XML has, at character {wrong.start()}")
    return f'<otherOptions numberOfOtherOptions="1"><other name="os_cert.result">{escaped(result)}</other></otherOptions>'


def _time_text(seconds: Optional[float]) -> str:
    """For how long a search may go on, exactly. Raises `BadModel` where that is no number."""
    return "" if seconds is None or seconds == math.inf else f"<job><maxTime>{exact(seconds, 'seconds')}</maxTime></job>"


def gap_text(gap: Gap, source: Source) -> Optional[str]:
    """The option of a gap: a number, in what the goal of the instance is told in, or a text as `2%`, for so many hundredths of the value. Raises
    `BadModel` where it is neither."""
    if isinstance(gap, str):
        if not gap.endswith("%"):
            raise BadModel(f"gap: {gap[:40]!r} is no number, and has no % behind one")
        return gap
    return None if gap is None else str(exact(gap, "gap") * (source.goal_scales or [1])[0])


def find_not_offered(fast: bool) -> None:
    """Raises `NotOffered` where an option is asked for that this version doesn't have."""
    if fast:
        raise NotOffered("this version has no option fast: each answer is computed in exact fractions")
