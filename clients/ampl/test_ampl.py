"""Tries the driver for .nl and .sol files.

    OS_PROGRAM=PROGRAM python3 clients/ampl/test_ampl.py

The files are written here by the format's own paper (D. M. Gay, Writing .nl Files), in both its forms, and MiniZinc writes others. What is
expected comes from GLPK and from the models.
"""

import contextlib
import io
import json
import os
import shutil
import signal
import struct
import subprocess
import sys
import tempfile
import time
import unittest
from fractions import Fraction
from pathlib import Path

sys.path.insert(0, str(Path(__file__).resolve().parents[1] / "python"))
from gubnatris import Error
from gubnatris.ampl import main
from gubnatris.nl import read_nl
from peers import ending_server, nobody

DRIVER = Path(__file__).resolve().with_name("gubnatris_ampl")
INF = None
DIET_COSTS = ["0.18", "0.23", "0.3", "0.12"]
DIET_ROWS = [["185", "160", "75", "110"], ["6.5", "8.5", "6.5", "3.5"], ["3.5", "9", "5.5", "1"]]


class Stub:
    """A program to be written as .nl: its variables stand continuous, 0-1, whole."""

    def __init__(self, variables, rows, factors, goals, binaries=0, integers=0, tail=(), first=("0 1.5",)):
        self.variables, self.rows, self.factors, self.goals = variables, rows, factors, goals
        self.binaries, self.integers, self.tail, self.first = binaries, integers, tail, first

    def header(self, letter):
        values, costs = sum(map(len, self.factors)), sum(len(costs) for _, _, costs in self.goals)
        lines = [
            f"{letter}3 1 1 0\t# problem made",
            f" {len(self.variables)} {len(self.rows)} {len(self.goals)} 0 0",
            " 0 0", " 0 0", " 0 0 0", " 0 0 0 1",
            f" {self.binaries} {self.integers} 0 0 0", f" {values} {costs}", " 0 0", " 0 0 0 0 0",
        ]  # fmt: skip
        return "\n".join(lines) + "\n"

    def text(self):
        lines = []
        for i in range(len(self.rows)):
            lines += [f"C{i}", "n0"]
        for k, (sense, constant, _) in enumerate(self.goals):
            lines += [f"O{k} {sense}", f"n{constant}"]
        lines += [f"x{len(self.first)}", *self.first] if self.variables else []
        lines += ["r", *map(self.ends, self.rows)] if self.rows else []
        lines += ["b", *map(self.ends, self.variables)]
        lines += [f"k{len(self.variables) - 1}", *("0" for _ in self.variables[1:])]
        for i, factors in enumerate(self.factors):
            lines += [f"J{i} {len(factors)}", *(f"{j} {factor}" for j, factor in factors)] if factors else []
        for k, (_, _, costs) in enumerate(self.goals):
            lines += [f"G{k} {len(costs)}", *(f"{j} {cost}" for j, cost in costs)] if costs else []
        return self.header("g") + "\n".join([*self.tail, *lines]) + "\n"

    @staticmethod
    def ends(pair):
        low, high = pair
        if low is None and high is None:
            return "3"
        if low == high:
            return f"4 {low}"
        return f"1 {high}" if low is None else f"2 {low}" if high is None else f"0 {low} {high}"

    def binary(self, order="<"):
        def put(form, *values):
            return struct.pack(order + form, *values)

        def ends(pair):
            code, *numbers = self.ends(pair).split()
            return code.encode() + b"".join(put("d", float(number)) for number in numbers)

        data = self.header("b").replace(" 0 0 0 1\n", " 0 0 2 1\n" if order == ">" else " 0 0 1 1\n", 1).encode()
        for i in range(len(self.rows)):
            data += b"C" + put("i", i) + b"s" + put("h", 0)
        for k, (sense, constant, _) in enumerate(self.goals):
            data += b"O" + put("ii", k, sense) + b"n" + put("d", float(constant))
        data += b"S" + put("ii", 0, 1) + put("i", 5) + b"order" + put("ii", 0, 7)
        data += b"r" + b"".join(map(ends, self.rows)) + b"b" + b"".join(map(ends, self.variables))
        data += b"k" + put("i", len(self.variables) - 1) + b"".join(put("i", 0) for _ in self.variables[1:])
        for letter, lists in ((b"J", self.factors), (b"G", [costs for _, _, costs in self.goals])):
            for i, terms in enumerate(lists):
                data += letter + put("ii", i, len(terms)) + b"".join(put("id", j, float(number)) for j, number in terms) if terms else b""
        return data


def terms(numbers):
    return [(j, number) for j, number in enumerate(numbers) if number != "0"]


def diet(**changes):
    """examples/diet.lp, whose optimum is 552/275 (GLPK: 2.007272727)."""
    return Stub([("0", "8")] * 4, [("2000", INF), ("60", INF), (INF, "70")], [terms(row) for row in DIET_ROWS], [(0, "0", terms(DIET_COSTS))], **changes)


def knapsack(**changes):
    """examples/capital_budget: at most 14 in all; its optimum is 42."""
    costs, sizes = ["16", "22", "12", "8"], ["5", "7", "4", "3"]
    return Stub([("0", "1")] * 4, [(INF, "14")], [terms(sizes)], [(1, "0", terms(costs))], binaries=4, **changes)


class Room:
    """A folder with a file of this name, and the driver run in it."""

    def __init__(self, data, stub="p"):
        self.folder, self.stub = tempfile.mkdtemp(), stub
        self.path = Path(self.folder, stub + ".nl")
        self.path.write_bytes(data if isinstance(data, bytes) else data.encode())

    def __enter__(self):
        return self

    def __exit__(self, *_):
        shutil.rmtree(self.folder)

    def run(self, *words, environment=None, name=DRIVER):
        given = {**os.environ, **(environment or {})}
        return subprocess.run([name, f"{self.folder}/{self.stub}", *words], capture_output=True, text=True, check=False, env=given)

    def sol(self):
        """The .sol file: message, options, counts, duals, values, code, suffixes."""
        lines = Path(self.folder, self.stub + ".sol").read_text(encoding="utf-8").splitlines()
        blank = lines.index("")
        assert lines[blank + 1] == "Options"
        count = int(lines[blank + 2])
        at = blank + 3 + count
        rows, duals, variables, values = map(int, lines[at : at + 4])
        numbers = list(map(float, lines[at + 4 : at + 4 + duals + values]))
        rest = lines[at + 4 + duals + values :]
        assert rest[0].startswith("objno 0 ")
        return "\n".join(lines[:blank]), lines[blank + 3 : at], (rows, variables), numbers[:duals], numbers[duals:], int(rest[0].split()[2]), rest[1:]


class Solved(unittest.TestCase):
    """Programs with known answers, as text and as binary of both orders of bytes."""

    def test_both_forms(self):
        for make, code, point in ((diet, 0, [8, 0, 0, 52 / 11]), (knapsack, 0, [0, 1, 1, 1])):
            for data in (make().text(), make().binary(), make().binary(">")):
                with self.subTest(make=make.__name__), Room(data) as room:
                    told = room.run("-AMPL")
                    self.assertEqual((told.returncode, told.stderr), (0, ""))
                    message, options, counts, _, values, found, _ = room.sol()
                    self.assertEqual((found, options, counts), (code, ["1", "1", "0"], (len(make().rows), 4)))
                    self.assertEqual(told.stdout.strip(), message)
                    for value, wanted in zip(values, point):
                        self.assertAlmostEqual(value, wanted, 12)

    def test_numbers_are_those_of_the_model(self):
        with Room(diet().text()) as room:
            room.run("-AMPL", "suffixes=rc,slack,bound,relmipgap")
            message, _, _, duals, values, _, suffixes = room.sol()
        self.assertIn("exactly 552/275", message)
        costs, rows = [float(c) for c in DIET_COSTS], [[float(x) for x in row] for row in DIET_ROWS]
        rc = {int(line.split()[0]): float(line.split()[1]) for line in suffixes[suffixes.index("rc") + 1 :][: int(suffixes[0].split()[2])]}
        for j in range(4):  # a reduced cost is the cost less the rows' duals
            self.assertAlmostEqual(rc.get(j, 0), costs[j] - sum(dual * row[j] for dual, row in zip(duals, rows)), 12)
        self.assertAlmostEqual(sum(dual * side for dual, side in zip(duals, (2000, 60, 70))) + 8 * rc.get(0, 0), 552 / 275, 12)
        self.assertIn("bound", suffixes)

    def test_suffixes_come_where_the_file_names_them(self):
        with Room(diet(tail=["S0 1 rc", "0 0"]).text()) as room:
            room.run("-AMPL")
            self.assertIn("rc", room.sol()[6])
        with Room(diet().text()) as room:
            room.run("-AMPL")
            self.assertEqual(room.sol()[6], [])

    def test_ends_without_answers(self):
        empty = Stub([("0", "1")], [("2", INF)], [[(0, "1")]], [(0, "0", [(0, "1")])])
        endless = Stub([("0", INF)], [], [], [(1, "0", [(0, "1")])])
        for program, code in ((empty, 200), (endless, 300)):
            with Room(program.text()) as room:
                self.assertEqual(room.run("-AMPL").returncode, 0)
                self.assertEqual(room.sol()[5], code)

    def test_a_constant_and_a_row_of_constants(self):
        text = diet().text().replace("O0 0\nn0", "O0 0\nn100").replace("C0\nn0", "C0\nn-100").replace("4 2000", "4 1900")
        text = text.replace("r\n2 2000", "r\n2 1900")  # the row's own constant of -100 makes it 2000 again
        with Room(text) as room:
            room.run("-AMPL")
            self.assertIn(f"exactly {Fraction(552, 275) + 100}", room.sol()[0])

    def test_goals(self):
        both = diet()
        both.goals = [(0, "0", terms(DIET_COSTS)), (1, "0", [(0, "1")])]
        with Room(both.text()) as room:
            told = room.run("-AMPL", "objno=2")
            self.assertEqual(room.sol()[4][0], 8)
            self.assertIn("1 goals were passed over", told.stdout)
            self.assertEqual(room.run("-AMPL", "objno=3").returncode, 1)
            self.assertIn("objno is 3, and there are 2 goals", room.sol()[0])

    def test_names_are_of_the_files_beside(self):
        text = diet().text().replace(" 0 0\n 0 0 0 0 0\n", " 7 5\n 0 0 0 0 0\n").replace("4 0.18", "").replace("0 0.18", "0 1e60")
        with Room(text) as room:
            Path(room.folder, "p.col").write_text("oats\nmilk\neggs\nbread\n", encoding="utf-8")
            Path(room.folder, "p.row").write_text("energy\nprotein\nfat\ncost\n", encoding="utf-8")
            told = room.run()
        self.assertRegex(told.stderr, "goal cost.*1e\\+60 passes 128 bits")

    def test_words(self):
        with Room(diet().text()) as room:
            told = room.run(environment={f"{DRIVER.name}_options": "outlev=0 nodelimit=5"})
            self.assertEqual((told.stdout, told.returncode), ("", 0))
            self.assertFalse(Path(room.folder, "p.sol").exists())
            self.assertEqual(room.run("wantsol=1", "mipgap=0", "gap=0.0", "absmipgap=0", "fast=0", "threads=4").returncode, 0)
            self.assertIn("threads is passed over", room.sol()[0])
            for word, wanted in (("gap=x", "mipgap is 'x', which is no number"), ("absmipgap=-1", "absmipgap is '-1'"), ("fast=1", "fast=1 is refused"), ("cuts=2", "no option 'cuts'"),
                                 ("timelimit=x", "no number of seconds"), ("nodelimit=-1", "no count"), ("nodelimit=0", "osol BadLimit"), ("-x", "is no option")):  # fmt: skip
                told = room.run("-AMPL", word)
                self.assertEqual((told.returncode, told.stderr.count("\n")), (1, 1))
                self.assertRegex(told.stderr, wanted)
                self.assertEqual(room.sol()[5], 500)
        told = subprocess.run([DRIVER, "-v"], capture_output=True, text=True, check=False)
        self.assertRegex(told.stdout, "^gubnatris_ampl ")
        told = subprocess.run([DRIVER, "-="], capture_output=True, text=True, check=False)
        self.assertIn("timelimit", told.stdout)
        self.assertEqual(subprocess.run([DRIVER], capture_output=True, text=True, check=False).returncode, 1)

    def test_it_begins_with_the_first_values(self):
        for first, wanted in ((("0 1", "1 0.9999999"), [1, 1, 0, 0]), (("0 1", "1 1", "2 1"), [])):  # 12 of 14, worth 38; and 16, which is too much
            with Room(knapsack(first=first).text()) as room:
                room.run("-AMPL", "nodelimit=1")
                self.assertEqual((room.sol()[5], room.sol()[4]), (400, wanted))

    def test_a_gap_ends_a_search(self):
        for word, wanted in (("absmipgap=10", 3), ("mipgap=0.3", 3), ("gap=0", 0), ("absmipgap=1e-6", 0)):
            with Room(knapsack().text()) as room:  # its first case is worth 44
                room.run("-AMPL", word, "suffixes=bound")
                self.assertEqual(room.sol()[5], wanted, word)
                self.assertIn("bound", room.sol()[6])

    def test_the_time_is_kept(self):
        rows = [[(j, str(2 * (1 + (j * (k + 3) + k) % 7))) for j in range(60)] for k in range(40, 44)]
        sides = [(str(2 * k + 1), str(2 * k + 1)) for k in range(40, 44)]
        odd = Stub([("0", "1")] * 60, sides, rows, [(1, "0", [(j, str(1 + j % 5)) for j in range(60)])], binaries=60)
        with Room(odd.text()) as room:
            begun = time.monotonic()
            room.run("-AMPL", "timelimit=1")
            self.assertLess(time.monotonic() - begun, 30)  # a machine may have much else to do
            self.assertEqual(room.sol()[5], 400)
            self.assertIn("for timeLimit 1", room.sol()[0])
            Path(room.folder, "tmp").mkdir()
            given = {**os.environ, "TMPDIR": f"{room.folder}/tmp"}
            process = subprocess.Popen([DRIVER, f"{room.folder}/p", "-AMPL"], stdout=subprocess.PIPE, stderr=subprocess.PIPE, env=given)
            while not os.listdir(f"{room.folder}/tmp"):
                time.sleep(0.05)
            process.send_signal(signal.SIGTERM)
            _, err = process.communicate(timeout=20)
            self.assertEqual((process.returncode, err), (1, b"gubnatris_ampl: interrupted, so there is no result\n"))
            self.assertEqual((sorted(os.listdir(room.folder)), os.listdir(f"{room.folder}/tmp")), (["p.nl", "p.sol", "tmp"], []))


class Foreign(unittest.TestCase):
    """Files that others write."""

    def test_those_of_minizinc(self):
        """MiniZinc writes .nl for solvers that say so, and reads their .sol: the answers are Gecode's."""
        models = DRIVER.parents[1] / "minizinc/models"
        told = {"id": "org.gubnatris.nl", "name": "nl", "version": "1", "mznlib": "-Glinear", "executable": str(DRIVER), "supportsFzn": False, "supportsNL": True}
        with tempfile.TemporaryDirectory() as folder:
            Path(folder, "nl.msc").write_text(json.dumps(told), encoding="utf-8")
            for name in ("bag", "blending", "tardiness"):
                answers = []
                for solver in ("org.gubnatris.nl", "gecode"):
                    words = ["minizinc", "--solver", solver, models / f"{name}.mzn"]
                    made = subprocess.run(words, capture_output=True, text=True, check=False, env={**os.environ, "MZN_SOLVER_PATH": folder})
                    answers.append([line for line in made.stdout.splitlines() if line])
                self.assertEqual(answers[0], answers[1])
                self.assertIn("==========", answers[0])

    def test_the_example(self):
        path = DRIVER.parents[2] / "examples/diet.nl"
        with Room(path.read_bytes()) as room:
            room.run("-AMPL")
            self.assertIn("objective 2.00727272727273, exactly 552/275", room.sol()[0])


class Bad(unittest.TestCase):
    """A file that is none, or says more than a linear program, is refused in one line, with its place, and a .sol that says so."""

    def refuses(self, data, wanted):
        out, err = io.StringIO(), io.StringIO()
        with Room(data) as room:
            with contextlib.redirect_stdout(out), contextlib.redirect_stderr(err):
                status = main([f"{room.folder}/p", "-AMPL"])
            self.assertEqual((status, out.getvalue(), err.getvalue().count("\n")), (1, "", 1), err.getvalue())
            self.assertRegex(err.getvalue(), wanted)
            self.assertEqual(room.sol()[5], 500)
            self.assertEqual(sorted(os.listdir(room.folder)), ["p.nl", "p.sol"])

    def test_no_nl(self):
        for data, wanted in ((b"", "no .nl file"), (b"hello\n" * 20, "no .nl file"), (b"\x00" * 99, "no .nl file"), (diet().text()[:60], "is cut"),
                             (diet().text().replace(" 4 3 1", " 4 x 1"), "line 2 of the header"), (diet().text().replace("J0", "J\xff"), "isn't text")):  # fmt: skip
            with self.subTest(wanted):
                self.refuses(data.encode("latin-1") if isinstance(data, str) else data, wanted)

    def test_what_is_cut(self):
        for data in (diet().text().encode(), diet().binary()):
            read_nl(data)
            for stop in range(len(data) - 1):
                if data[:1] == b"g" and stop > data.rindex(b"\n", 0, -1):
                    break  # the last number of a text may be cut to a shorter one
                with self.subTest(stop=stop), self.assertRaises(Error):
                    read_nl(data[:stop])

    def test_what_is_not_linear(self):
        for old, new, wanted in (
            ("C0\nn0", "C0\no2\nv0\nv1", "row 0 isn't linear: it has the operator \\*"),
            ("O0 0\nn0", "O0 0\no43\nv0", "goal 0 isn't linear: it has the operator log"),
            ("C1\nn0", "C1\nv2", "row 1 isn't linear: it has a variable"),
            ("C1\nn0", "C1\no99\nv2", "operator number 99"),
            ("C1\nn0", "F0 1 2 hypot\nC1\nn0", "a function of its own"),
            ("C1\nn0", "V4 0 0\nn0\nC1\nn0", "a defined variable"),
            ("C1\nn0", "L0\nn0\nC1\nn0", "a logical constraint"),
            ("r\n2 2000", "r\n5 1 2", "row 0 is a complementarity"),
        ):
            with self.subTest(wanted):
                self.refuses(diet().text().replace(old, new), wanted)

    def test_counts_that_disagree(self):
        for old, new, wanted in (
            (" 12 4\n", " 11 4\n", "11 values in the rows .* 12"),
            (" 12 4\n", " 12 3\n", "3 values in the goals .* 4"),
            ("J0 4", "J0 3", "no segment '3'"),
            ("J0 4", "J0 5", "5 terms, and there are 4 at most"),
            ("J0 4\n0 185", "J0 4\n9 185", "variable 9, and there are 4"),
            ("J0 4\n0 185", "J0 4\n1 185", "a second number of variable 1"),
            ("J1 4", "J0 4", "a second segment J of row 0"),
            ("J1 4", "J7 4", "row 7, and there are 3"),
            ("b\n", "r\n", "a second segment r"),
            (" 0 0 0 0 0\n 12", " 3 4 0 0 0\n 12", "more whole variables than variables"),
            (" 4 3 1 0 0", " 1001 3 1 0 0", "1,001 variables"),
            (" 4 3 1 0 0", " 999999999 3 1 0 0", "999,999,999 variables"),
            (" 4 3 1 0 0", " 4 999999999 1 0 0", "999,999,999 rows"),
            (" 4 3 1 0 0", " 4 3 999999999 0 0", "999,999,999 goals"),
        ):
            with self.subTest(wanted):
                self.assertIn(old, diet().text())
                self.refuses(diet().text().replace(old, new, 1), wanted)

    def test_numbers(self):
        for bad, wanted in (("nan", "is no number"), ("Infinity", "is no number"), ("0x1p3", "is no number"), ("1e9999999", "passes 128 bits"), ("1e300", "passes 128 bits")):
            for old in ("0 185", "0 0.18", "2 2000"):
                with self.subTest(bad=bad, old=old):
                    if old == "2 2000" and bad == "Infinity":
                        continue  # an end that isn't there
                    self.refuses(diet().text().replace(old, f"{old[0]} {bad}", 1), wanted)
        for old, new, wanted in (
            ("\n2 2000", "\n2 Infinity", "row 0 has an end that is infinity"),
            ("\n1 70", "\n1 -inf", "row 2 has an end that is minus infinity"),
            ("\n2 60", "\n4 inf", "row 1 has an end that is infinity"),
            ("\n0 0 8", "\n0 -inf -inf", "variable 0 has an end that is minus infinity"),
        ):
            self.assertIn(old, diet().text())
            self.refuses(diet().text().replace(old, new, 1), wanted)
        open_ends = diet().text().replace("\n2 60", "\n2 -Infinity").replace("\n1 70", "\n0 -inf +inf")
        self.assertEqual([tuple(ends) for ends in read_nl(open_ends.encode()).row_ends], [(2000, None), (None, None), (None, None)])
        self.refuses(diet().binary().replace(b"2" + struct.pack("<d", 2000.0), b"2" + struct.pack("<d", float("inf"))), "row 0 has an end that is infinity")
        self.refuses(diet().binary().replace(struct.pack("<d", 185.0), struct.pack("<d", float("nan"))), "is no number that a model has")

    def test_machines(self):
        with ending_server() as url, Room(diet().text()) as room:
            for given, wanted in (
                ({"OS_PROGRAM": "/none"}, "/none is no program"),
                ({"OS_PROGRAM": "/bin/false"}, "ended with status 1"),
                ({"OS_SERVER": nobody()}, "nobody answers"),
                ({"OS_SERVER": "nobody"}, "not the URL of a server"),
                ({"OS_SERVER": url}, "no reply: "),
            ):
                told = room.run("-AMPL", environment=given)
                self.assertEqual((told.returncode, told.stderr.count("\n")), (1, 1))
                self.assertRegex(told.stderr, wanted)
        with tempfile.TemporaryDirectory() as folder:
            told = subprocess.run([DRIVER, f"{folder}/none", "-AMPL"], capture_output=True, text=True, check=False)
            self.assertRegex(told.stderr, "none.nl: it can't be read: No such file")


if __name__ == "__main__":
    unittest.main()
