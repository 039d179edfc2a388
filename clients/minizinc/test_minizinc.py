"""Tries the driver for MiniZinc: the models beside it, whose answers Gecode finds too, and files as no MiniZinc would write them.

    OS_PROGRAM=PROGRAM python3 clients/minizinc/test_minizinc.py
"""

import contextlib
import io
import os
import re
import shutil
import signal
import subprocess
import sys
import tempfile
import time
import unittest
from pathlib import Path

HERE = Path(__file__).resolve().parent
sys.path.insert(0, str(HERE.parent / "python"))
from gubnatris.flatzinc import main
from peers import ending_server, nobody

DRIVER = HERE / "gubnatris_fzn"
MODELS = sorted(HERE.glob("models/*.mzn"))
ENVIRONMENT = {**os.environ, "MZN_SOLVER_PATH": str(HERE)}
SMALL = """array [1..2] of float: c = [1.0,0.5];
var 0..7: x :: output_var;
var 0.0..9.0: y :: is_defined_var;
var bool: b :: output_var;
var 0.0..7.0: f :: is_defined_var;
array [1..2] of var int: pair :: output_array([1..2]) = [x,3];
constraint float_lin_le(c,[f,y],6.5);
constraint int2float(x,f) :: defines_var(f);
constraint int_le(4,x);
solve :: int_search([x],input_order,indomain_min,complete) maximize y;
"""


def minizinc(solver, *words, **given):
    made = subprocess.run(["minizinc", "--solver", solver, *words], capture_output=True, text=True, check=False, env=ENVIRONMENT, **given)
    return [line for line in made.stdout.splitlines() if line and not line.startswith("%")], made.stderr


def flat(text, *words):
    """What the driver writes of a FlatZinc text, and its status."""
    out, err = io.StringIO(), io.StringIO()
    with tempfile.TemporaryDirectory() as folder:
        path = Path(folder, "a.fzn")
        path.write_bytes(text if isinstance(text, bytes) else text.encode())
        with contextlib.redirect_stdout(out), contextlib.redirect_stderr(err):
            status = main([*words, str(path)])
    return out.getvalue(), err.getvalue(), status


def odd_sums():
    """Four sums of even numbers that are to be odd: no case ends early."""
    lines = [f"var 0..1: x{j} :: output_var;" for j in range(60)]
    names = ",".join(f"x{j}" for j in range(60))
    for k in range(40, 44):
        factors = ",".join(str(2 * (1 + (j * (k + 3) + k) % 7)) for j in range(60))
        lines.append(f"constraint int_lin_eq([{factors}],[{names}],{2 * k + 1});")
    return "\n".join([*lines, "solve maximize x0;", ""])


class Models(unittest.TestCase):
    """Twenty models and one without a solution: the answers are Gecode's."""

    def test_answers_are_those_of_gecode(self):
        self.assertEqual(len(MODELS), 21)
        for path in MODELS:
            with self.subTest(path.stem):
                wanted, _ = minizinc("gecode", path)
                found, err = minizinc("gubnatris", "-t", "100000", path)
                self.assertTrue(wanted and (wanted[0].startswith("answer ") or wanted[0].startswith("=====UNSAT")))
                self.assertEqual(found, wanted, err)

    def test_statistics(self):
        made = subprocess.run(["minizinc", "--solver", "gubnatris", "-s", HERE / "models/bag.mzn"], capture_output=True, text=True, check=False, env=ENVIRONMENT)
        for line in ("objective=37.0", "objectiveBound=37.0", "nSolutions=1"):
            self.assertIn(f"%%%mzn-stat: {line}\n", made.stdout)

    def test_the_time_is_kept(self):
        with tempfile.TemporaryDirectory() as folder:
            Path(folder, "odd.fzn").write_text(odd_sums(), encoding="utf-8")
            begun = time.monotonic()
            found, _ = minizinc("gubnatris", "-t", "2000", f"{folder}/odd.fzn")
            self.assertEqual(found, ["=====UNKNOWN====="])
            self.assertLess(time.monotonic() - begun, 30)  # a machine may have much else to do


class Flat(unittest.TestCase):
    """FlatZinc as it stands in a file."""

    def test_values(self):
        # y is at most 9, and at most 13 - 2 x by the first row, where x is 4 or more: so y 5 and x 4.
        out, err, status = flat(SMALL, "-s")
        self.assertEqual((status, err), (0, ""))
        self.assertIn("x = 4;\n", out)
        self.assertIn("pair = array1d(1..2, [4, 3]);\n----------\n==========\n", out)
        self.assertRegex(out, "b = (true|false);")
        self.assertIn("%%%mzn-stat: objective=5.0\n", out)
        self.assertIn("%%%mzn-stat: variables=3\n", out)  # f and x are one column

    def test_kinds(self):
        for old, new, wanted in (
            ("maximize y", "satisfy", "----------\n"),
            ("maximize y", "minimize y", "==========\n"),
            ("int_le(4,x)", "int_le(8,x)", "=====UNSATISFIABLE=====\n"),
            ("var 0.0..9.0: y", "var float: y", "=========="),
        ):
            out, err, status = flat(SMALL.replace(old, new))
            self.assertEqual((status, err), (0, ""))
            self.assertTrue(out.endswith(wanted) or wanted in out, out)
        self.assertNotIn("==========", flat(SMALL.replace("maximize y", "satisfy"))[0])
        self.assertEqual(flat("var float: x;\nsolve maximize x;\n")[0], "=====UNBOUNDED=====\n")

    def test_a_goal_that_an_equation_defines(self):
        """It is no column and no row of its own; where its ends say more than those of its terms, they count all the same."""
        text = "var 0..5: x :: output_var;\nvar 0..5: y :: output_var;\nvar {}: cost :: output_var;\nconstraint int_lin_eq([2,3,-1],[x,y,cost],-1);\n{}solve maximize cost;\n"
        for kind, more, wanted, counts in (
            ("0..100", "", 26, (2, 0)),
            ("int", "", 26, (2, 0)),
            ("0..17", "constraint int_le(3,y);\n", 17, (2, 2)),  # 2 x + 3 y is at most 16, as at 2, 4
            ("0..100", "constraint int_le(cost,12);\n", 12, (3, 2)),  # another row has it too, so it stays a column
        ):
            out, err, status = flat(text.format(kind, more), "-s")
            found = [int(re.search(rf"^{name} = (.*);$", out, re.M)[1]) for name in ("x", "y", "cost")]
            told = tuple(int(re.search(rf"mzn-stat: {name}=(.*)$", out, re.M)[1]) for name in ("variables", "propagators"))
            self.assertEqual((status, err, found[2], 2 * found[0] + 3 * found[1] + 1, told), (0, "", wanted, wanted, counts))
            self.assertIn(f"mzn-stat: objective={wanted}.0\n", out)
        out, _, _ = flat("var 0.0..9.0: x;\nvar int: n :: output_var;\nvar float: f;\nconstraint int2float(n,f);\nconstraint float_lin_eq([1.0,-2.0],[f,x],0.5);\nsolve maximize n;\n")
        self.assertEqual(out, "n = 18;\n----------\n==========\n")  # n is 2 x + 1/2, whole, and x at most 9

    def test_sets_with_gaps(self):
        out, _, _ = flat("var {2,5,9}: x :: output_var;\nconstraint int_le(x,8);\nsolve maximize x;\n")
        self.assertEqual(out, "x = 5;\n----------\n==========\n")

    def test_arrays_have_their_own_type(self):
        text = "var 0..1: i;\nvar bool: b;\nvar 1.0..5.0: f;\nvar 0.0..1.0: g;\nconstraint bool2int(b,i);\nconstraint int_le(1,i);\nconstraint int2float(i,g);\n"
        for kind, inside, told in (("bool", "b,true,false", "true, true, false"), ("int", "i,7", "1, 7"), ("float", "f,2,g", "1.0, 2.0, 1.0"), ("1..9", "i", "1")):
            out, _, _ = flat(f"{text}array [1..2] of var {kind}: a :: output_array([1..2]) = [{inside}];\nsolve minimize f;\n")
            self.assertEqual(out, f"a = array1d(1..2, [{told}]);\n----------\n==========\n")

    def test_numbers(self):
        out, _, _ = flat("var 0.0..9.0: x :: output_var;\nconstraint float_le(x,8.800000000000001);\nsolve maximize x;\n")
        self.assertEqual(out, "x = 8.8;\n----------\n==========\n")  # as MiniZinc 2.6 writes 8.8

    def test_what_is_not_linear_or_damaged(self):
        for old, new, wanted in (
            ("int_le(4,x)", "int_times(x,x,x)", "line 9: the constraint int_times isn't linear"),
            ("int_le(4,x)", "int_lin_ne(c,[x,x],3)", "line 9: the constraint int_lin_ne isn't linear"),
            ("int_le(4,x)", "int_le(4,z)", "line 9: there is no z"),
            ("int_le(4,x)", "int_le(4)", "line 9: int_le has 1 arguments"),
            ("[f,y]", "[f]", "line 7: the lists of float_lin_le don't fit"),
            ("var bool: b", "var set of 1..3: b", "line 4: 'set' is no type"),
            ("var bool: b", "var bool: x", "line 4: a second x"),
            ("solve ::", "solved ::", "line 10: 'solved' begins no item"),
            ("maximize y;", "maximize y", "line 10: ; should stand there"),
            ("maximize y;", "maximize y; constraint int_le(x,3);", "something stands behind the solve item"),
            ("1.0,0.5]", "1.0,0.5", "line 1: , should stand there"),
            ("1.0,0.5]", "nan,0.5]", "line 1: there is no nan"),
            ("1.0,0.5]", "1e999,0.5]", "line 1: .* passes 128 bits"),
            ("1.0,0.5]", "1e99,0.5]", "passes 128 bits"),
            ("var 0..7: x", "var 0..7: x@", "line 2: '@ .*' begins nothing"),
            ("pair :: output_array([1..2]) = [x,3]", "pair", "the array pair has no values"),
            ("= [x,3]", "= [x,{1,3}]", "line 6: the array pair is to be told, and has what is no number"),
            ("maximize y", "maximize c", "line 10: a number should stand there"),
        ):
            with self.subTest(new):
                self.assertIn(old, SMALL)
                out, err, status = flat(SMALL.replace(old, new, 1))
                self.assertEqual((out, status, err.count("\n")), ("=====ERROR=====\n", 1, 1), err)
                self.assertRegex(err, wanted)
        for data, wanted in ((b"", "no solve item"), (b"\xff", "isn't UTF-8"), (b"hello", "begins no item"), (b"a" * 99999, "begins no item"), (b"array [1..1] of int: a = " + b"[" * 99999, "stand too deep")):
            out, err, status = flat(data)
            self.assertEqual((out, status, err.count("\n")), ("=====ERROR=====\n", 1, 1))
            self.assertRegex(err, wanted)

    def test_what_is_cut(self):
        for stop in range(len(SMALL) - 1):
            out, err, status = flat(SMALL[:stop]) if stop % 5 == 0 else ("=====ERROR=====\n", "one\n", 1)
            self.assertEqual((out, status, err.count("\n")), ("=====ERROR=====\n", 1, 1), SMALL[:stop][-30:])

    def test_words_and_machines(self):
        for words, wanted in ((["-t", "x"], "count of milliseconds"), (["-q"], "no option '-q'"), (["-t", "5", "other"], "no option|one file")):
            out, err, status = flat(SMALL, *words)
            self.assertEqual((out, status), ("=====ERROR=====\n", 1))
            self.assertRegex(err, wanted)
        with ending_server() as url, tempfile.TemporaryDirectory() as folder:
            Path(folder, "a.fzn").write_text(SMALL, encoding="utf-8")
            for given, wanted in (
                ({"OS_PROGRAM": "/none"}, "/none is no program"),
                ({"OS_PROGRAM": "/bin/false"}, "ended with status 1"),
                ({"OS_SERVER": nobody()}, "nobody answers"),
                ({"OS_SERVER": "nobody"}, "not the URL of a server"),
                ({"OS_SERVER": url}, "no reply: "),
            ):
                made = subprocess.run([DRIVER, f"{folder}/a.fzn"], capture_output=True, text=True, check=False, env={**os.environ, **given})
                self.assertEqual((made.stdout, made.returncode, made.stderr.count("\n")), ("=====ERROR=====\n", 1, 1))
                self.assertRegex(made.stderr, wanted)
            made = subprocess.run([DRIVER, f"{folder}/none.fzn"], capture_output=True, text=True, check=False)
            self.assertRegex(made.stderr, "none.fzn: it can't be read: No such file")

    def test_term_ends_it_and_what_it_started(self):
        with tempfile.TemporaryDirectory() as folder:
            Path(folder, "odd.fzn").write_text(odd_sums(), encoding="utf-8")
            Path(folder, "tmp").mkdir()
            process = subprocess.Popen([DRIVER, f"{folder}/odd.fzn"], stdout=subprocess.PIPE, stderr=subprocess.PIPE, env={**os.environ, "TMPDIR": f"{folder}/tmp"})
            while not os.listdir(f"{folder}/tmp"):
                time.sleep(0.05)
            process.send_signal(signal.SIGTERM)
            self.assertEqual(process.communicate(timeout=20), (b"=====UNKNOWN=====\n", b""))
            self.assertEqual(os.listdir(f"{folder}/tmp"), [])


if __name__ == "__main__":
    if not shutil.which("minizinc"):
        sys.exit("minizinc isn't installed")
    unittest.main()
