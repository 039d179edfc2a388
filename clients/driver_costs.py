"""What each driver takes beside the program itself: the processor seconds of a transport of 1,000 variables and 70 rows by each of them, less
those of the program on the same instance.

    OS_PROGRAM=PROGRAM /usr/bin/python3 clients/driver_costs.py

Processor seconds are those of all processes that are started, the least of some runs, so that what else the machine does changes them little.
PuLP's own reading and building of the problem isn't part of them; Python's start is part of those of AMPL's and MiniZinc's drivers.
"""

import os
import resource
import subprocess
import sys
import tempfile
import unittest
from pathlib import Path

CLIENTS = Path(__file__).resolve().parent
sys.dont_write_bytecode = True
sys.path[:0] = [str(CLIENTS / "python"), str(CLIENTS / "ampl"), str(CLIENTS.parent / "bench")]

import programs
import pulp
from gubnatris import Model, Program
from gubnatris_pulp import GUBNATRIS
from test_ampl import Stub

RUNS, MOST = 3, 0.3
MADE = programs.transport(20, 50)


def spent():
    """The processor seconds of this process and of those that it has waited for."""
    return sum(it.ru_utime + it.ru_stime for it in map(resource.getrusage, (resource.RUSAGE_SELF, resource.RUSAGE_CHILDREN)))


def least_seconds(work):
    found = []
    for _ in range(RUNS):
        begun = spent()
        work()
        found.append(spent() - begun)
    return min(found)


def ran(*words):
    return subprocess.run(words, capture_output=True, text=True, check=True).stdout


def nl_text():
    """The program as AMPL's .nl."""
    rows = [tuple(None if end is None else str(end) for end in ends) for *ends, _ in MADE.rows]
    factors = [[(j, str(factor)) for j, factor in sorted(entries.items())] for _, _, entries in MADE.rows]
    return Stub([("0", None)] * len(MADE.costs), rows, factors, [(0, "0", [(j, str(cost)) for j, cost in enumerate(MADE.costs)])]).text()


def flat_text():
    """The program as FlatZinc, each of whose rows is below a number."""
    lines = [f"var 0.0..100000.0: x{j} :: output_var;" for j in range(len(MADE.costs))] + ["var float: cost :: output_var;"]
    for low, high, entries in MADE.rows:
        sign, end = (1, high) if low is None else (-1, low)
        lines.append(f"constraint float_lin_le({[float(sign * factor) for factor in entries.values()]},[{','.join(f'x{j}' for j in entries)}],{float(sign * end)});")
    terms = ",".join([f"x{j}" for j in range(len(MADE.costs))] + ["cost"])
    lines += [f"constraint float_lin_eq({[*map(float, MADE.costs), -1.0]},[{terms}],0.0);", "solve minimize cost;", ""]
    return "\n".join(lines)


def pulp_problem():
    problem = pulp.LpProblem("transport", pulp.LpMinimize)
    variables = [pulp.LpVariable(f"x{j}", 0) for j in range(len(MADE.costs))]
    problem += pulp.lpSum(cost * x for cost, x in zip(MADE.costs, variables))
    for low, high, entries in MADE.rows:
        form = pulp.lpSum(factor * variables[j] for j, factor in entries.items())
        problem += form <= high if low is None else form >= low
    return problem


def solved_model():
    """The result of the program as a model of the package's, which is made first."""
    model = Model("transport")
    variables = [model.variable(f"x{j}") for j in range(len(MADE.costs))]
    for low, high, entries in MADE.rows:
        model.row({variables[j]: factor for j, factor in entries.items()}, low, high)
    model.minimise(dict(zip(variables, MADE.costs)))
    return Program().solve(model)


class Costs(unittest.TestCase):
    """Each driver finds the program's value, and takes little more."""

    @classmethod
    def setUpClass(cls):
        cls.room = tempfile.TemporaryDirectory()
        cls.addClassCleanup(cls.room.cleanup)
        cls.osil = Path(cls.room.name, "p.osil")
        for name, text in (("p.osil", programs.osil(MADE)), ("p.nl", nl_text()), ("p.fzn", flat_text())):
            Path(cls.room.name, name).write_text(text, encoding="utf-8")
        cls.value = Program().solve(cls.osil).objective
        cls.own = least_seconds(lambda: ran(os.environ["OS_PROGRAM"], "solve", str(cls.osil)))
        print(f"| driver | processor seconds | beside the program |\n|---|---|---|\n| the program itself | {cls.own:.3f} | |", flush=True)

    def takes_little(self, name, work):
        seconds = least_seconds(work)
        print(f"| {name} | {seconds:.3f} | {seconds - self.own:.3f} |", flush=True)
        self.assertLessEqual(seconds - self.own, MOST)

    def test_models(self):
        self.assertEqual(solved_model().objective, self.value)
        self.takes_little("Python, a model", solved_model)

    def test_pulp(self):
        problem = pulp_problem()
        self.takes_little("PuLP", lambda: problem.solve(GUBNATRIS(msg=False)))
        self.assertEqual(problem.solverModel.objective, self.value)

    def test_ampl(self):
        words = [sys.executable, str(CLIENTS / "ampl/gubnatris_ampl"), f"{self.room.name}/p", "-AMPL"]
        self.assertIn(f"objective {self.value}\n", ran(*words))
        self.takes_little("AMPL's files", lambda: ran(*words))

    def test_minizinc(self):
        words = [sys.executable, str(CLIENTS / "minizinc/gubnatris_fzn"), f"{self.room.name}/p.fzn"]
        self.assertIn(f"cost = {float(self.value)!r};\n", ran(*words))
        self.takes_little("MiniZinc, its FlatZinc", lambda: ran(*words))


if __name__ == "__main__":
    unittest.main()
