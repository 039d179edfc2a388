"""Runs PuLP's own suite on `GUBNATRIS`, and tries what PuLP's users may hand it. Debian's PuLP is that of /usr/bin/python3.

    OS_PROGRAM=PROGRAM /usr/bin/python3 clients/python/test_pulp.py

Of the suite all tests are run. Those that go by a solver's name or class and leave others out are run here again for this one, with what
the suite expects of the solvers that it names: duals and slacks, solves one after another, the log, and the time that is kept.
"""

import contextlib
import io
import math
import os
import sys
import tempfile
import time
import unittest
from fractions import Fraction
from pathlib import Path

import pulp
from pulp.apis.core import PulpSolverError
from pulp.tests.test_pulp import BaseSolverTest, pulpTestCheck

sys.path.insert(0, os.path.dirname(os.path.abspath(__file__)))
from gubnatris_pulp import GUBNATRIS
from peers import ending_server, nobody


class Suite(BaseSolverTest.PuLPTest):
    """PuLP's own tests."""

    solveInst = GUBNATRIS


def first_problem():
    """PuLP's first problem: its optimum is x 4, y -1, z 6 (test 010 and 080 of the suite)."""
    problem = pulp.LpProblem("first", pulp.LpMinimize)
    x, y, z = pulp.LpVariable("x", 0, 5), pulp.LpVariable("y", -1, 1), pulp.LpVariable("z", 0)
    problem += x + 4 * y + 9 * z, "obj"
    problem += x + y <= 5, "c1"
    problem += x + z >= 10, "c2"
    problem += -y + z == 7, "c3"
    return problem, (x, y, z)


def budget():
    """examples/capital_budget, which one case doesn't end: the first is worth 44, and the optimum 42."""
    problem = pulp.LpProblem("budget", pulp.LpMaximize)
    made = [pulp.LpVariable(name, 0, 1, pulp.LpInteger) for name in "abcd"]
    problem += pulp.lpSum(worth * x for worth, x in zip((16, 22, 12, 8), made))
    problem += pulp.lpSum(size * x for size, x in zip((5, 7, 4, 3), made)) <= 14
    return problem, made


class LeftOut(unittest.TestCase):
    """What the suite asks of solvers by their names alone."""

    def test_duals_and_slacks(self):
        problem, (x, y, z) = first_problem()
        costs, duals, slacks = {x: 0, y: 12, z: 0}, {"c1": 0, "c2": 1, "c3": 8}, {"c1": 2, "c2": 0, "c3": 0}  # test 080
        pulpTestCheck(problem, GUBNATRIS(msg=False), [1], {x: 4, y: -1, z: 6}, costs, duals, slacks)

    def test_duals_of_a_maximum_are_what_one_more_brings(self):
        problem = pulp.LpProblem("most", pulp.LpMaximize)
        x, y = pulp.LpVariable("x", 0), pulp.LpVariable("y", 0, 3)
        problem += 2 * x + 5 * y
        problem += x + y <= 4, "room"
        pulpTestCheck(problem, GUBNATRIS(msg=False), [1], {x: 1, y: 3}, {x: 0, y: 3}, {"room": 2}, {"room": 0})

    def test_solves_one_after_another(self):
        problem = pulp.LpProblem("test100", pulp.LpMinimize)
        x, y, z = (pulp.LpVariable(name, 0, 1) for name in "xyz")
        problem += x <= 1, "c1"
        status = problem.sequentialSolve([x + 0 * y + 0 * z, 0 * x - 1 * y + 0 * z], solver=GUBNATRIS(msg=False))
        pulpTestCheck(problem, GUBNATRIS(msg=False), [[1, 1]], {x: 0, y: 1}, status=status)

    def test_a_log_is_written(self):
        problem, _ = first_problem()
        with tempfile.TemporaryDirectory() as folder:
            problem.solve(GUBNATRIS(msg=False, logPath=f"{folder}/log"))
            self.assertIn("optimal, 54", Path(folder, "log").read_text(encoding="utf-8"))
            with self.assertRaisesRegex(PulpSolverError, "the log can't be written"):
                problem.solve(GUBNATRIS(msg=False, logPath=f"{folder}/none/log"))

    def test_names_stand_in_the_document_that_is_asked_for_them(self):
        problem, _ = first_problem()
        for names, wanted in ((True, ['<var idx="0" name="x">4</var>', '<var idx="1" name="y">-1</var>', '<con idx="2" name="c3">']), (None, [])):
            problem.solve(GUBNATRIS(msg=False, **({"names": names} if names else {})))
            document = problem.solverModel.document
            self.assertEqual([text for text in wanted if text not in document], [])
            self.assertEqual('name="c3"' in document, bool(names))

    def test_the_time_is_kept(self):
        problem = pulp.LpProblem("odd", pulp.LpMaximize)
        chosen = [pulp.LpVariable(f"x{j}", 0, 1, pulp.LpInteger) for j in range(60)]
        problem += pulp.lpSum((1 + j % 5) * x for j, x in enumerate(chosen))
        for k in range(40, 44):  # sums of even numbers that are to be odd: no case ends early
            problem += pulp.lpSum(2 * (1 + (j * (k + 3) + k) % 7) * x for j, x in enumerate(chosen)) == 2 * k + 1
        begun = time.monotonic()
        problem.solve(GUBNATRIS(msg=False, timeLimit=2))
        self.assertLess(time.monotonic() - begun, 30)  # a machine may have much else to do
        self.assertIn((problem.status, problem.sol_status), ((1, 2), (0, 0)))
        self.assertEqual(problem.solverModel.cause, "timeLimit 2")

    def test_it_begins_with_values_that_are_there(self):
        problem, made = budget()
        for start, wanted in (((0.9999999, 1, 0, None), ((1, 2), 38)), ((1, 1, 1, 0), ((0, 0), None))):  # 12 of 14; and 16, which is too much
            for x, value in zip(made, start):
                x.varValue = value
            out = io.StringIO()
            with contextlib.redirect_stdout(out):
                problem.solve(GUBNATRIS(warmStart=True, maxNodes=1))
            self.assertEqual(((problem.status, problem.sol_status), problem.solverModel.objective), wanted)
            self.assertEqual("no feasible point" in out.getvalue(), wanted[1] is None)

    def test_a_gap_ends_a_search(self):
        for options, wanted in (({"gapAbs": 10}, "gap"), ({"gapRel": 0.3}, "gap"), ({"gapRel": 0, "gapAbs": 0}, None), ({"gapAbs": 1e-6}, None)):
            problem, _ = budget()
            problem.solve(GUBNATRIS(msg=False, **options))
            self.assertEqual((problem.status, problem.sol_status, problem.solverModel.cause), (1, 2 if wanted else 1, wanted), options)

    def test_it_is_listed(self):
        self.assertIn("GUBNATRIS", pulp.listSolvers(onlyAvailable=True))
        self.assertIsInstance(pulp.getSolver("GUBNATRIS", msg=False, timeLimit=3), GUBNATRIS)
        self.assertEqual(pulp.getSolver("GUBNATRIS", timeLimit=3).copy().timeLimit, 3)


class Exact(unittest.TestCase):
    """Numbers are taken as they stand, and come exactly in `solverModel`."""

    def test_tenths(self):
        problem = pulp.LpProblem("tenths", pulp.LpMinimize)
        x = pulp.LpVariable("x")
        problem += x
        problem += x == 0.1 + 0.2, "sum"  # 0.30000000000000004, as Python shows it
        problem.solve(GUBNATRIS(msg=False))
        self.assertEqual(problem.solverModel.values, (Fraction("0.30000000000000004"),))

    def test_thirds(self):
        problem = pulp.LpProblem("thirds", pulp.LpMaximize)
        x, y = pulp.LpVariable("x", 0), pulp.LpVariable("y", 0, Fraction(1, 3))
        problem += Fraction(1, 7) * x + y, "worth"
        problem += Fraction(1, 3) * x + y <= 1, "row"
        problem.solve(GUBNATRIS(msg=False))
        # At y = 1/3 the row leaves x = 2; one more of the row's end is worth 3/7, one more of y 1 - 3/7.
        self.assertEqual((problem.solverModel.objective, problem.solverModel.values), (Fraction(13, 21), (2, Fraction(1, 3))))
        self.assertEqual((problem.solverModel.duals, problem.solverModel.reduced_costs), ((Fraction(3, 7),), (0, Fraction(4, 7))))
        self.assertEqual(problem.solverModel.check(), "accepted optimal")

    def test_a_constant_counts(self):
        problem, _ = first_problem()
        problem.setObjective(problem.objective + 100)
        problem.solve(GUBNATRIS(msg=False))
        self.assertEqual(problem.solverModel.objective, 154)
        self.assertAlmostEqual(pulp.value(problem.objective), 154)


class Bad(unittest.TestCase):
    """What is no linear program, and what can't be reached, is PuLP's own exception with why."""

    def refuses(self, wanted, problem, **options):
        with self.assertRaisesRegex(PulpSolverError, wanted):
            problem.solve(GUBNATRIS(msg=False, **options))

    def test_numbers(self):
        for bad, wanted in ((math.nan, "nan"), (math.inf, "inf"), (-math.inf, "inf"), ("1", "is no number")):
            for place in ("cost", "factor", "side", "lower", "upper"):
                problem, (x, y, _) = first_problem()
                if place == "cost":
                    problem.objective[x] = bad
                elif place == "factor":
                    problem.constraints["c1"][y] = bad
                elif place == "side":
                    problem.constraints["c3"].constant = bad if isinstance(bad, float) else math.nan
                elif place == "lower":
                    x.lowBound = bad
                else:
                    x.upBound = bad
                with self.subTest(bad=bad, place=place):
                    if (place, bad) in (("lower", -math.inf), ("upper", math.inf)):
                        problem.solve(GUBNATRIS(msg=False))  # an end that isn't there
                        self.assertEqual(problem.status, 1)
                    else:
                        self.refuses("(row c3|variable x|row c1|goal obj)", problem)

    def test_no_goal_and_no_variable(self):
        problem = pulp.LpProblem("empty", pulp.LpMinimize)
        problem.solve(GUBNATRIS(msg=False))
        self.assertEqual(problem.status, 1)
        problem += pulp.lpSum([]) >= 5, "no variable"
        problem.solve(GUBNATRIS(msg=False))
        self.assertEqual(problem.status, -1)

    def test_names(self):
        problem, (x, _, _) = first_problem()
        for name in ("\0", "a\x1bb", "\ud800"):
            x._LpElement__name = name
            self.refuses("has the character .* no document can hold", problem)
        x._LpElement__name = "<&\"'> é 日"
        problem.solve(GUBNATRIS(msg=False))
        self.assertEqual((problem.status, x.varValue), (1, 4))

    def test_sizes(self):
        problem = pulp.LpProblem("wide", pulp.LpMinimize)
        x = pulp.LpVariable("x", 0)
        problem += x
        problem += x >= 1e300, "far"
        self.refuses("row far: 1e\\+300 passes 128 bits", problem)
        problem = pulp.LpProblem("big", pulp.LpMinimize)
        problem += pulp.lpSum(pulp.LpVariable(f"x{j}", 0) for j in range(1001))
        self.refuses("1,001 variables, and 1,000 are the most", problem)

    def test_sets(self):
        problem, (x, y, _) = first_problem()
        problem.sos1["one"] = {x: 1, y: 2}
        self.refuses("special ordered sets", problem)

    def test_options(self):
        problem, _ = first_problem()
        self.refuses("gapRel and gapAbs are two gaps", problem, gapRel=0.1, gapAbs=1)
        self.refuses("osol BadGap", problem, gapRel=-0.1)
        self.refuses("no option cuts", problem, cuts=True)
        self.refuses("no options as '-x'", problem, options=["-x"])
        self.refuses("osol BadLimit", problem, maxNodes=0)
        out = io.StringIO()
        with contextlib.redirect_stdout(out):
            problem.solve(GUBNATRIS(maxMemory=1, threads=2))
        self.assertEqual(out.getvalue().count("is passed over"), 2)

    def test_no_program_and_no_server(self):
        problem, _ = first_problem()
        self.refuses("/none/os_main is no program", problem, path="/none/os_main")
        self.assertFalse(GUBNATRIS(path="/none/os_main").available())
        self.refuses("ended with status 1", problem, path="/bin/false")
        self.refuses("nobody answers", problem, server=nobody())
        self.refuses("not the URL of a server", problem, server="nobody")
        with ending_server() as url:
            self.refuses("no reply: ", problem, server=url)

    def test_nothing_is_left(self):
        problem, (x, _, _) = first_problem()
        with tempfile.TemporaryDirectory() as folder:
            before, tempfile.tempdir = tempfile.tempdir, folder
            try:
                problem.solve(GUBNATRIS(msg=False))
                x.lowBound = math.nan
                self.refuses("nan", problem)
            finally:
                tempfile.tempdir = before
            self.assertEqual(os.listdir(folder), [])


if __name__ == "__main__":
    with tempfile.TemporaryDirectory() as room:
        os.chdir(room)
        unittest.main()
