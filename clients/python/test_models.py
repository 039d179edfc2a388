"""Tries models, results and the program of this machine.

    OS_PROGRAM=PROGRAM python3 clients/python/test_models.py

What is expected is worked out from the models: by hand, by their duals' own sums, or by GLPK.
"""

import base64
import csv
import doctest
import io
import json
import math
import os
import random
import re
import signal
import subprocess
import sys
import tempfile
import time
import unittest
import unittest.mock
import warnings
from decimal import Decimal
from fractions import Fraction
from pathlib import Path

from gubnatris import (
    BadModel, Error, Model, NoProgram, NoReply, NotInstance, NotOffered, NotSent, Program, ProgramFailed, Refused, Server, names, read_result, solver,
)  # fmt: skip
from gubnatris.instances import read_instance
from peers import ending_server

ROOT = Path(__file__).resolve().parents[2]
DIET, BUDGET, TRANSPORT = (ROOT / f"examples/{name}.osil" for name in ("diet", "capital_budget", "transport"))


def bread_and_milk():
    """At least 4 of bread and a third of milk, bread at a seventh each, milk at a twentieth: bread alone, since 1/7 is below 3/20."""
    model = Model("bread and milk")
    bread, milk = model.variable("bread", high=8), model.variable("milk", high=Fraction(7, 3))
    model.row({bread: 1, milk: Fraction(1, 3)}, low=4, name="energy")
    model.minimise({bread: Fraction(1, 7), milk: 0.05}, name="cost")
    return model


def odd_sums(count=60):
    """Sums of even numbers that are to be odd: no case ends early."""
    model = Model("odd")
    chosen = [model.variable(high=1, whole=True) for _ in range(count)]
    for k in range(40, 44):
        model.row({x: 2 * (1 + (j * (k + 3) + k) % 7) for j, x in enumerate(chosen)}, 2 * k + 1, 2 * k + 1)
    model.maximise({chosen[0]: 1})
    return model


def most_of(share):
    """The most of x, whole, where 2 x is at most 5, at so much each: the first case is worth 5/2 of it."""
    model = Model("most")
    x = model.variable("x", whole=True)
    model.row({x: 2}, high=5)
    model.maximise({x: share})
    return model


class Models(unittest.TestCase):
    """What a model says is what its document says, exactly."""

    def test_numbers_are_exact(self):
        for value, text in ((3, "3"), (-0.1, "-0.1"), (0.1 + 0.2, "0.30000000000000004"), (Decimal("1.10"), "1.1"), (Fraction(1, 8), "0.125"),
                            (1e-7, "0.0000001"), (2**126, str(2**126)), (True, "1")):  # fmt: skip
            model = Model()
            model.variable("x", low=value)
            self.assertIn(f'lb="{text}"', model.osil())

    def test_fractions_scale_their_row(self):
        model, rows = Model(), random.Random(5)
        variables = [model.variable(f"x{j}", low=None) for j in range(4)]
        for _ in range(20):
            terms = {x: Fraction(rows.randint(-9, 9), rows.randint(1, 12)) for x in variables}
            model.row(terms, Fraction(rows.randint(-9, 0), 7), Fraction(rows.randint(1, 9), 3))
        model.maximise({x: Fraction(1, 3) for x in variables}, Fraction(2, 3))
        said, written = read_instance(model.osil()), model.written()
        for i, scale in enumerate(written.row_scales):
            self.assertEqual(said.factors[i], {j: factor * scale for j, factor in model.instance.factors[i].items()})
            self.assertEqual((said.rows[i].low, said.rows[i].high), (model.rows[i].low * scale, model.rows[i].high * scale))
        self.assertEqual((written.goal_scales, said.constant, said.costs[0]), ([3], 2, 1))

    def test_kinds_and_ends(self):
        model = Model("kinds")
        for low, high, whole, zero in ((0, 1, True, False), (None, math.inf, False, False), (2, 5, False, True), (2, 5, True, True), (Fraction(1, 3), Fraction(11, 3), True, False)):
            model.variable(low=low, high=high, whole=whole, or_zero=zero)
        found = re.findall(r'type="(.)" lb="(.*?)" ub="(.*?)"', model.osil())
        self.assertEqual(found, [("I", "0", "1"), ("C", "-INF", "INF"), ("D", "2", "5"), ("J", "2", "5"), ("I", "1", "3")])

    def test_names_come_back(self):
        model = Model('a <b> & "c"')
        model.variable('<&"\'\t é 日')
        model.variable("same")
        model.variable("same")
        said = read_instance(model.osil())
        self.assertEqual([column.name for column in said.variables], ['<&"\'\t é 日', "same", "same"])
        self.assertEqual((said.name, names(model)), ('a <b> & "c"', ['<&"\'\t é 日', "same", "same"]))

    def test_what_is_bad(self):
        model, other = Model("m"), Model()
        x, y = model.variable("x"), other.variable("y")
        for work, wanted in (
            (lambda: model.variable("v", low=math.nan), "variable v: nan is no number"),
            (lambda: model.variable("v", low=math.inf), "variable v: a lower end is infinite"),
            (lambda: model.variable("v", high=Decimal("-Infinity")), "variable v: an upper end is minus infinity"),
            (lambda: model.variable("v", high="1"), "'1' is no number, but str"),
            (lambda: model.variable("v", high=1j), "is no number, but complex"),
            (lambda: model.variable("a\0b"), "has the character"),
            (lambda: model.variable(7), "which is no text"),
            (lambda: Model("\x1b"), "the model: its name has the character"),
            (lambda: model.row({x: math.inf}), "row 0, x: inf is no number"),
            (lambda: model.row({x: 1}, high=math.nan, name="r"), "row r: nan"),
            (lambda: model.row({y: 1}), "is no variable of this model"),
            (lambda: model.row({"x": 1}), "'x' is no variable"),
            (lambda: model.minimise({x: -math.inf}), "goal 0, x: -inf"),
            (lambda: model.minimise({x: 1}, constant=math.nan), "goal 0: nan"),
            (lambda: model.row({x: Decimal("1e999999999")}), "passes 128 bits"),
        ):
            with self.assertRaisesRegex(BadModel, wanted):
                work()
        self.assertEqual((len(model.variables), len(model.rows), len(model.instance.goals)), (1, 0, 0))

    def test_what_no_document_takes(self):
        for make, wanted in (
            (lambda m, x: m.row({x: 1e300}, high=1), "row 0: 1e\\+300 passes 128 bits"),
            (lambda m, x: m.row({x: 1}, high=Fraction(1, 2**130)), "passes 128 bits"),
            (lambda m, x: m.row({x: Fraction(1, 10**39)}, high=1), "passes 128 bits"),
            (lambda m, x: m.row({x: 2**127}, high=1), "passes 128 bits"),
            (lambda m, x: m.variable("z", 2, Fraction(7, 3), or_zero=True), "variable z: an end of a variable that may be 0 besides is a decimal"),
            (lambda m, x: [m.variable() for _ in range(1000)], "1,001 variables, and 1,000 are the most"),
            (lambda m, x: [m.row({x: 1}) for _ in range(1001)], "1,001 rows, and 1,000 are the most"),
            (lambda m, x: [m.minimise({x: 1}) for _ in range(9)], "9 goals, and 8 are the most"),
            (lambda m, x: m.variable("n" * 5_000_000), "its OSiL has 5,000,.* bytes"),
        ):
            model = Model()
            make(model, model.variable("x"))
            with self.assertRaisesRegex(BadModel, wanted):
                model.osil()


class Results(unittest.TestCase):
    """What follows from a result and its instance."""

    def test_the_model_s_own_numbers_come_back(self):
        result = Program().solve(bread_and_milk())
        self.assertEqual((result.status, result.objective, result.values), ("optimal", Fraction(4, 7), (4, 0)))
        # A dual is 1/7; of milk at 0 one more costs 1/20 and saves a third of 1/7.
        self.assertEqual((result.duals, result.reduced_costs), ((Fraction(1, 7),), (0, Fraction(1, 20) - Fraction(1, 21))))
        self.assertEqual((result.activities, result.slacks, result.bound, result.gap), ((4,), ((0, None),), Fraction(4, 7), 0))
        self.assertEqual((result.names, result.row_names, result.check()), (("bread", "milk"), ("energy",), "accepted optimal"))

    def test_ends_that_are_no_decimals_have_reduced_costs(self):
        model = Model()
        x, y = model.variable("x", high=Fraction(1, 3)), model.variable("y", high=Fraction(2, 7))
        model.row({x: 1, y: 1}, high=Fraction(1, 2))
        model.maximise({x: 3, y: 2})
        result = Program().solve(model)
        self.assertEqual((result.values, result.objective), ((Fraction(1, 3), Fraction(1, 6)), Fraction(4, 3)))
        self.assertEqual((result.duals, result.reduced_costs), ((2,), (1, 0)))

    def test_a_leaf_of_rows_says_what_the_whole_one_says(self):
        left_out = 0
        for given in (bread_and_milk(), DIET, TRANSPORT):
            result = Program().solve(given)
            pairs = result.tree[0].split(" ")[1:]
            rows = [pair for pair in pairs if int(pair.partition(":")[0]) >= len(result.values)]
            left_out += len(pairs) - len(rows)
            alone = read_result(result.document.replace(result.tree[0], " ".join(["boundRows", *rows]))).of(given)
            self.assertEqual((alone.check(), alone.duals, alone.reduced_costs), ("accepted optimal", result.duals, result.reduced_costs))
        self.assertGreater(left_out, 0)

    def test_duals_are_slopes(self):
        """Of random programs, minimised and maximised: one thousandth more of a row's end changes the objective by so many thousandths of its dual."""
        told = 0
        for seed in range(8):
            values = []
            for step in (0, Fraction(1, 10**6)):
                rows, model = random.Random(seed), Model()
                variables = [model.variable(f"x{j}", 0, rows.randint(3, 9)) for j in range(5)]
                for i in range(4):
                    model.row({x: rows.randint(1, 9) for x in variables}, high=rows.randint(20, 60) + (step if i == 0 else 0))
                (model.maximise if seed % 2 else model.minimise)({x: rows.randint(1, 20) * (1 if seed % 2 else -1) for x in variables})
                values.append(Program().solve(model))
            if values[0].duals == values[1].duals:
                told += 1
                self.assertEqual((values[1].objective - values[0].objective) / Fraction(1, 10**6), values[0].duals[0])
        self.assertGreater(told, 4)

    def test_what_has_no_duals(self):
        result = Program().solve(BUDGET)
        self.assertEqual((result.status, result.duals, result.reduced_costs), ("optimal", None, None))
        alone = read_result(result.document)
        self.assertEqual((alone.names, alone.activities, alone.slacks, alone.duals), (None, None, None, None))
        with self.assertRaises(NotInstance):
            alone.check()
        self.assertEqual(alone.of(BUDGET).check(), "accepted optimal")
        self.assertEqual(alone.by_name()["x0"], result.values[0])

    def test_several_goals(self):
        model = Model()
        x, y = model.variable("x", high=3), model.variable("y")
        model.row({x: 1, y: 1}, high=4)
        model.maximise({x: Fraction(1, 3)}, name="first")
        model.maximise({y: Fraction(1, 7)}, 1, name="second")
        result = Program().solve(model)
        self.assertEqual((result.values, result.objectives), ((3, 1), (1, Fraction(8, 7))))
        self.assertEqual((result.duals, [goal["exactly"] for goal in json.loads(result.to_json())["objectives"]]), (None, ["1", "8/7"]))

    def test_statuses(self):
        empty, endless = Model(), Model()
        x, y = empty.variable(high=1), endless.variable()
        empty.row({x: 1}, low=2)
        endless.maximise({y: 1})
        self.assertEqual(Program().solve(empty).status, "infeasible")
        found = Program().solve(endless)
        self.assertEqual((found.status, found.ray[0] > 0, found.bound, found.gap), ("unbounded", True, None, None))
        self.assertEqual(Program().solve(Model()).status, "optimal")
        stopped = Program().solve(odd_sums(), node_limit=3)
        self.assertEqual((stopped.status, stopped.cause, stopped.bound), ("unsure", "nodeLimit 3", None))

    def test_names_stand_in_the_document_where_they_are_asked_for(self):
        model = Model()
        x = model.variable("steel & iron", high=4)
        model.row({x: 1}, high=3, name="furnace")
        model.maximise({x: 1})
        named, bare = Program().solve(model, names=True), Program().solve(model)
        self.assertIn('<var idx="0" name="steel &amp; iron">3</var>', named.document)
        self.assertNotIn("steel", bare.document)
        self.assertEqual((named.values, named.check()), (bare.values, "accepted optimal"))

    def test_certificates_have_rows_alone_where_that_is_asked_for(self):
        model = Model()
        x = model.variable("x", whole=True)
        model.row({x: 2}, high=5)
        model.maximise({x: 1})
        bare, whole, rows = Program().solve(model), Program().solve(model, form="whole"), Program().solve(model, form="rows")
        self.assertEqual(whole.document, bare.document)
        self.assertIn("<item>split 0 2</item><item>boundRows</item><item>farkasRows 1:-1</item>", rows.document)
        self.assertEqual((rows.values, rows.check()), (bare.values, "accepted optimal"))
        with self.assertRaises(Refused):
            Program().solve(model, form="short")

    def test_certificates_are_taken_apart(self):
        model = Model()
        x = model.variable("x", whole=True)
        model.row({x: 2}, high=5)
        model.maximise({x: 1})
        result = Program().solve(model, rounds=1)
        self.assertEqual((result.values, set(result.certificate), len(result.certificate["rounds"])), ((2,), {"point", "value", "rounds", "tree"}, 1))
        self.assertEqual(result.duals, None)

    def test_json_and_csv(self):
        result = Program().solve(DIET)
        found = json.loads(result.to_json())
        self.assertEqual((found["status"], found["objectives"][0]["exactly"], found["variables"][3]["exactly"]), ("optimal", "552/275", "52/11"))
        lines = list(csv.reader(io.StringIO(result.to_csv())))
        self.assertEqual([line[:2] for line in lines[1:]], [["objective", "cost"], *(["variable", it] for it in ("oats", "milk", "eggs", "bread")), *(["row", it] for it in ("energy", "protein", "fat"))])
        self.assertEqual(lines[1][3], "552/275")

    def test_names_of_a_document_come_first(self):
        result = Program().solve(DIET)
        values = "".join(f'<var idx="{j}" name="n{j}">0</var>' for j in range(4))
        text = re.sub("<variables><values>.*?</values>", f"<variables><values>{values}</values>", result.document)
        self.assertEqual(read_result(text).names, ("n0", "n1", "n2", "n3"))
        self.assertEqual(read_result(text).of(DIET).names, ("n0", "n1", "n2", "n3"))
        half = text.replace(' name="n2"', "")
        self.assertEqual((read_result(half).names, read_result(half).of(DIET).names), (None, ("oats", "milk", "eggs", "bread")))


class Shown(unittest.TestCase):
    """What the README shows of models comes."""

    def test_the_readme(self):
        text = (ROOT / "README.md").read_text(encoding="utf-8").split("## From Python, PuLP")[1].split("PuLP, as Debian")[0]
        shown = doctest.DocTestParser().get_doctest(text, {}, "README.md", "README.md", 0)
        told = doctest.DocTestRunner(verbose=False).run(shown)
        self.assertEqual((told.attempted, told.failed), (7, 0))


class Programs(unittest.TestCase):
    """The program of this machine."""

    def test_the_time_is_kept_and_nothing_is_left(self):
        with tempfile.TemporaryDirectory() as folder:
            before, tempfile.tempdir = tempfile.tempdir, folder
            try:
                begun = time.monotonic()
                result = Program().solve(odd_sums(), node_limit=1_000_000, turn_limit=100_000_000, seconds=0.5)
                self.assertLess(time.monotonic() - begun, 30)  # a machine may have much else to do
                self.assertEqual(result.cause, "timeLimit 1/2")
                for instance, seconds in (("<osil/>", 5), (DIET, -1), (DIET, 1e30)):
                    with self.assertRaises(Refused):
                        Program().solve(instance, seconds=seconds)
                with self.assertRaisesRegex(BadModel, "seconds: nan"):
                    Program().solve(DIET, seconds=math.nan)
                with self.assertRaises(ProgramFailed):
                    Program("/bin/false").solve(DIET)
            finally:
                tempfile.tempdir = before
            self.assertEqual(os.listdir(folder), [])
        for seconds in (20, 20.5, math.inf):
            self.assertEqual(Program().solve(DIET, seconds=seconds).objective, Fraction(552, 275))
        self.assertEqual(Program().solve(DIET, seconds=0).cause, "timeLimit 0")

    def test_what_is_not_offered(self):
        for it in (Program(), Server("http://127.0.0.1:1")):
            with self.assertRaisesRegex(NotOffered, "no option fast"):
                it.solve(DIET, fast=True)

    def test_bounds_and_gaps(self):
        model = most_of(1)
        for options, wanted in (
            ({"node_limit": 1}, ("unsure", "nodeLimit 1", None, None)), ({"node_limit": 1, "bound": True}, ("unsure", "nodeLimit 1", None, Fraction(5, 2))),
            ({"node_limit": 2}, ("bestSoFar", "nodeLimit 2", 2, None)), ({"node_limit": 2, "bound": True}, ("bestSoFar", "nodeLimit 2", 2, Fraction(5, 2))),
            ({"gap": 0.5}, ("bestSoFar", "gap", 2, None)), ({"gap": "25%", "bound": True}, ("bestSoFar", "gap", 2, Fraction(5, 2))),
            ({"gap": "24.9%"}, ("optimal", None, 2, 2)), ({"gap": Fraction(49, 100), "bound": True}, ("optimal", None, 2, 2)),
        ):  # fmt: skip
            found = Program().solve(model, **options)
            self.assertEqual((found.status, found.cause, found.objective, found.bound), wanted, options)
            is_bounded = found.cause is not None and found.bound is not None
            line = f"accepted {found.status}" + f" within {found.bound}" * is_bounded if is_bounded or found.status != "unsure" else "refused NoClaim"
            self.assertEqual(found.check(), line, options)
        third = most_of(Fraction(1, 3))  # sent three times as large
        for gap, wanted in ((Fraction(1, 6), "gap"), (Fraction(4, 25), None)):
            self.assertEqual(Program().solve(third, gap=gap).cause, wanted)
        for gap, wanted, says in ((-1, Refused, "BadGap"), ("-1%", Refused, "BadGap"), ("1", BadModel, "gap: '1' is no number"), (math.nan, BadModel, "gap: nan")):
            with self.assertRaisesRegex(wanted, says):
                Program().solve(model, gap=gap)

    def test_a_search_begins_with_a_point(self):
        model = Model("budget")  # examples/capital_budget, which one case doesn't end
        made = [model.variable(name, 0, 1, whole=True) for name in ("plant", "warehouse", "lorries", "office")]
        model.row(dict(zip(made, (5, 7, 4, 3))), high=14)
        model.maximise(dict(zip(made, (16, 22, 12, 8))))
        best = Program().solve(model)
        for start, wanted in (
            ([1, 1, 0, 0], 38), ({made[0]: 1, "lorries": Fraction(1), 3: 1.0}, 36), (best, 42), ([Fraction(1, 2), 1, 0, 0], None), ([1, 1, 1, 0], None), ([1, 1, 0, 0, 0], None),
            (None, None),
        ):  # fmt: skip
            self.assertEqual(Program().solve(model, start=start, node_limit=1).objective, wanted, start)
        self.assertEqual(Program().solve(BUDGET, start={"warehouse": 1}, node_limit=1).objective, 22)
        for start, wanted, says in (
            ({"none": 1}, NotSent, "'none' is no variable"), ([1, math.nan], BadModel, "start 1: nan"), ([1, "1"], BadModel, "start 1: '1' is no number"),
            ([10**40], Refused, "BadValue"), ({1000: 1}, Refused, "BadIndex"),
        ):  # fmt: skip
            with self.assertRaisesRegex(wanted, says):
                Program().solve(model, start=start)

    def test_what_is_refused(self):
        for instance, wanted in (("<osil/>", Refused), (Path("/none"), NotSent), (DIET.with_suffix(".osrl"), Refused)):
            with self.assertRaises(wanted):
                Program().solve(instance)
        with self.assertRaises(Refused):
            Program().solve(DIET, node_limit=0)

    def test_files_that_cant_be_written(self):
        before, tempfile.tempdir = tempfile.tempdir, "/none"
        try:
            with self.assertRaisesRegex(NotSent, "no file can be written for the program"):
                Program().solve(DIET)
        finally:
            tempfile.tempdir = before
        with self.assertRaisesRegex(NotSent, "no file can be written for the program"):
            Program().solve("<osil>\ud800</osil>")

    def test_a_server_that_ends_within_a_call(self):
        with ending_server() as url, self.assertRaises(NoReply):
            Server(url, seconds=20).solve(DIET)

    def test_a_build_that_comes_first_is_told(self):
        with tempfile.TemporaryDirectory() as folder:
            script = Path(folder, "os")
            script.write_text(f"#!/bin/sh\ncat '{DIET.with_suffix('.osrl')}'\n", encoding="utf-8")
            script.chmod(0o755)
            Path(folder, "crates.txt").touch()
            with self.assertWarnsRegex(UserWarning, "first proves and builds the program"):
                self.assertEqual(Program(script).solve(DIET).objective, Fraction(552, 275))
            Path(folder, "crates/os_main/out").mkdir(parents=True)
            Path(folder, "crates/os_main/out/os_main").touch()
            with warnings.catch_warnings():
                warnings.simplefilter("error")
                Program(script).solve(DIET)

    def test_user_and_password_are_those_of_the_environment(self):
        heard = []
        with ending_server(heard) as url, unittest.mock.patch.dict(os.environ, {"OS_SERVER": url, "OS_USER": "ann", "OS_PASSWORD": "p:q"}):
            with self.assertRaises(NoReply):
                solver().solve(DIET)
        self.assertIn(b"\r\nAuthorization: Basic " + base64.b64encode(b"ann:p:q") + b"\r\n", heard[0])

    def test_where_it_is(self):
        kept = dict(os.environ)
        try:
            os.environ["OS_PROGRAM"] = "/none/os_main"
            with self.assertRaisesRegex(NoProgram, "/none/os_main is no program"):
                Program()
            with self.assertRaises(NoProgram):
                solver()
            os.environ["OS_SERVER"] = "http://127.0.0.1:9"
            self.assertIsInstance(solver(), Server)
            with self.assertRaises(ValueError):
                solver("nobody")
        finally:
            os.environ.clear()
            os.environ.update(kept)
        for path, wanted in (("/bin/false", "ended with status 1"), ("/bin/cat", "it is no result document"), ("/etc/passwd", "is no program")):
            with self.assertRaisesRegex(Error, wanted):
                Program(path).solve(DIET)

    def test_an_interrupt_ends_it(self):
        """At any moment from the first file on: nothing runs on, and no file is left."""
        # a shell has what it starts in the background pass over interrupts
        text = "import signal; signal.signal(signal.SIGINT, signal.default_int_handler); from gubnatris import *; import test_models; Program().solve(test_models.odd_sums(), node_limit=1000000, turn_limit=100000000)"
        for pause in (0, 0.01, 0.03, 0.3):
            with tempfile.TemporaryDirectory() as folder:
                process = subprocess.Popen([sys.executable, "-c", text], cwd=Path(__file__).parent, stderr=subprocess.PIPE, env={**os.environ, "TMPDIR": folder})
                while not os.listdir(folder):
                    time.sleep(0.005)
                time.sleep(pause)
                process.send_signal(signal.SIGINT)
                _, err = process.communicate(timeout=30)
                self.assertIn(b"KeyboardInterrupt", err)
                self.assertEqual((os.listdir(folder), running(folder)), ([], []))


def running(folder):
    """The processes whose words name a folder."""
    found = []
    for path in Path("/proc").glob("[0-9]*/cmdline"):
        try:
            found += [path] if folder.encode() in path.read_bytes() else []
        except OSError:
            pass  # it has ended
    return found


if __name__ == "__main__":
    unittest.main()
