"""Gubnatris as a solver of PuLP: `LpProblem.solve(GUBNATRIS())`.

Numbers are exact: an int is itself, and a float the shortest decimal that reads back, so that 0.1 is one tenth. `varValue`, `dj`, `pi` and
`slack` are floats, as PuLP has them; `LpProblem.solverModel` is the `gubnatris.Result` with the exact numbers and the certificate.
"""

from __future__ import annotations

import time
from typing import Any, Optional, Union

import pulp
import pulp.apis
from pulp import constants
from pulp.apis.core import LpSolver, PulpSolverError

from gubnatris import Error, Model, Program, Result, Server, TimedOut, Variable, solver
from gubnatris.exact import exact
from gubnatris.options import MOST_NODES, MOST_TURNS, Gap

__all__ = ["GUBNATRIS"]

STATUSES = {
    "optimal": (constants.LpStatusOptimal, constants.LpSolutionOptimal),
    "bestSoFar": (constants.LpStatusOptimal, constants.LpSolutionIntegerFeasible),
    "infeasible": (constants.LpStatusInfeasible, constants.LpSolutionInfeasible),
    "unbounded": (constants.LpStatusUnbounded, constants.LpSolutionUnbounded),
    "unsure": (constants.LpStatusNotSolved, constants.LpSolutionNoSolutionFound),
}
TAKEN = ("gapAbs", "gapRel", "logPath", "maxNodes", "names", "path", "server", "warmStart")
PASSED_OVER = {  # what other solvers are told of, and why it changes no answer here
    "maxMemory": "no limit of memory can be set",
    "threads": "one search has one thread",
}


class GUBNATRIS(LpSolver):
    """The solver.

    `mip`: False relaxes whole variables. `msg`: False says nothing. `timeLimit`: after so many seconds the best point so far. Further:
    `gapRel` or `gapAbs`: the search ends where its point is as near to the bound as this part of its value, or this number; 0 is none.
    `maxNodes`, `logPath`, `names`, True for names in the result's document, `path` of a program, `server`, the URL of one.
    """

    name = "GUBNATRIS"

    def copy(self) -> GUBNATRIS:
        made: GUBNATRIS = super().copy()
        made.timeLimit, made.optionsDict = self.timeLimit, dict(self.optionsDict)
        return made

    def available(self) -> bool:
        """Whether there is a program, or a server is named."""
        try:
            self._solver()
        except (Error, ValueError):
            return False
        return True

    def actualSolve(self, lp: Any) -> int:
        """Solves a problem of PuLP's, and sets its values and its status."""
        begun, notes = time.monotonic(), self._notes()
        try:
            model, variables = self._model(lp)
            result: Optional[Result] = self._result(model, self._start(variables))
        except TimedOut:
            result = None
        except (Error, ValueError) as failure:
            raise PulpSolverError(f"GUBNATRIS: {failure}") from failure
        _assign(lp, list(variables), result)
        notes += [f"GUBNATRIS: {result.message}"] if result and result.message else []
        self._say([*notes, _summary(result, time.monotonic() - begun)])
        return int(lp.status)

    def _notes(self) -> list[str]:
        """What is said of options that change nothing. Raises where one is asked for that there isn't."""
        for name in self.optionsDict:
            if name not in TAKEN and name not in PASSED_OVER:
                raise PulpSolverError(f"GUBNATRIS has no option {name}; it has {', '.join(TAKEN)}")
        if self.options:
            raise PulpSolverError(f"GUBNATRIS has no command line, so no options as {self.options[0]!r}")
        return [f"{name} is passed over: {why}" for name, why in PASSED_OVER.items() if self.optionsDict.get(name)]

    def _solver(self) -> Union[Server, Program]:
        path, server = self.optionsDict.get("path"), self.optionsDict.get("server")
        return Program(path) if path else solver(server)

    def _model(self, lp: Any) -> tuple[Model, dict[Any, Variable]]:
        """The problem as a model. Names may come twice, so variables go by themselves."""
        if lp.sos1 or lp.sos2:
            raise ValueError("special ordered sets aren't part of a linear program with whole variables")
        model, made = Model(lp.name or ""), {}
        for variable in lp.variables():
            whole = bool(self.mip) and variable.cat == constants.LpInteger
            made[variable] = model.variable(variable.name, variable.lowBound, variable.upBound, whole=whole)
        goal = model.maximise if lp.sense == constants.LpMaximize else model.minimise
        if lp.objective is not None:
            goal([(made[variable], cost) for variable, cost in lp.objective.items()], lp.objective.constant, lp.objective.name or "")
        for name, row in lp.constraints.items():
            side = -row.constant
            low = side if row.sense in (constants.LpConstraintGE, constants.LpConstraintEQ) else None
            high = side if row.sense in (constants.LpConstraintLE, constants.LpConstraintEQ) else None
            model.row([(made[variable], factor) for variable, factor in row.items()], low, high, name)
        return model, made

    def _start(self, variables: dict[Any, Variable]) -> dict[Variable, Any]:
        """The values that the variables have, those of whole ones rounded, where they are to be begun with."""
        given = variables.items() if self.optionsDict.get("warmStart") else ()
        return {made: round(variable.varValue) if made.whole else variable.varValue for variable, made in given if variable.varValue is not None}

    def _gap(self) -> Gap:
        """The gap at which the search ends, of the two that may be asked for. 0 is none: the search goes on to the optimum."""
        relative, absolute = (exact(self.optionsDict.get(name, 0), name) for name in ("gapRel", "gapAbs"))
        if relative and absolute:
            raise ValueError("gapRel and gapAbs are two gaps, and a search has one")
        return f"{100 * relative}%" if relative else absolute or None

    def _result(self, model: Model, start: dict[Variable, Any]) -> Result:
        limits = {"node_limit": self.optionsDict.get("maxNodes", MOST_NODES), "turn_limit": MOST_TURNS, "seconds": self.timeLimit, "gap": self._gap()}
        return self._solver().solve(model, names=bool(self.optionsDict.get("names")), start=start, **limits)

    def _say(self, lines: list[str]) -> None:
        if self.msg:
            print("\n".join(lines))
        if self.optionsDict.get("logPath"):
            try:
                with open(self.optionsDict["logPath"], "w", encoding="utf-8") as log:
                    log.write("\n".join(lines) + "\n")
            except OSError as failure:
                raise PulpSolverError(f"GUBNATRIS: the log can't be written: {failure}") from failure


def _assign(lp: Any, variables: list[Any], result: Optional[Result]) -> None:
    """Sets what PuLP keeps of a solution."""
    status = result.status if result else "unsure"
    has_point = result is not None and status in ("optimal", "bestSoFar")
    _set(variables, "varValue", result.values if result and has_point else None)
    _set(variables, "dj", result.reduced_costs if result else None)
    rows = list(lp.constraints.values())
    _set(rows, "pi", result.duals if result else None)
    _set(rows, "slack", [-row.constant - at for row, at in zip(rows, map(float, result.activities or ()))] if result and has_point else None)
    lp.solverModel = result
    lp.assignStatus(*STATUSES[status])


def _set(items: list[Any], name: str, values: Any) -> None:
    for item, value in zip(items, [None] * len(items) if values is None else values):
        setattr(item, name, None if value is None else float(value))


def _summary(result: Optional[Result], seconds: float) -> str:
    if result is None:
        return f"GUBNATRIS: no result after {seconds:.1f} s: the search hadn't begun"
    worth = f", {result.objective}" if result.objective is not None else ""
    return f"GUBNATRIS: {result.status}{worth}{f', cause {result.cause}' if result.cause else ''}, in {seconds:.2f} s"


if GUBNATRIS not in pulp.apis._all_solvers:
    pulp.apis._all_solvers.append(GUBNATRIS)
