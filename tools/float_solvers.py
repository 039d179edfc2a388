"""Solvers that work with floats, as finders of points: a program as free MPS, and the points that CBC, GLPK and HiGHS write of it.

Nothing that they say is believed. What is read of them is numbers, which somebody has to make exact; a solver that isn't there, hangs or
writes rubbish gives none, and a note says so.
"""

import os
import re
import resource
import shutil
import signal
import subprocess
import time

from linear_program import MOST_FILE

from gubnatris.program import held_signals

PATIENCE = 2  # seconds that a solver may take past its limit


def is_choice(variable):
    """Whether a variable may be 0 besides its range, and that can be said by one more variable of 0 or 1."""
    return variable.zero and variable.low is not None and variable.high is not None


def relaxed(variable):
    """The ends of a variable, and 0 too where it may be that."""
    low, high = variable.low, variable.high
    if variable.zero:
        low, high = low if low is None else min(low, 0), high if high is None else max(high, 0)
    return low, high


def columns_of(instance):
    """Each column's entries by rows, those of the choices behind those of the variables; a choice has two rows of its own."""
    columns = [[] for _ in instance.variables]
    for i, factors in enumerate(instance.factors):
        for j, factor in factors.items():
            columns[j].append((f"r{i}", factor))
    for j, variable in enumerate(instance.variables):
        if is_choice(variable):
            columns[j] += [(f"l{j}", 1), (f"u{j}", 1)]
            columns.append([(f"l{j}", -variable.low), (f"u{j}", -variable.high)])
    return columns


def row_lines(instance):
    """The kinds, the right sides and the ranges of the rows."""
    kinds, sides, ranges = [" N goal"], [], []
    for i, row in enumerate(instance.rows):
        side = row.high if row.low is None else row.low
        kinds.append(f" {'N' if side is None else 'E' if row.low == row.high else 'L' if row.low is None else 'G'} r{i}")
        if side:
            sides.append(f" RHS r{i} {float(side)!r}")
        if row.low is not None and row.high is not None and row.low != row.high:
            ranges.append(f" RNG r{i} {float(row.high - row.low)!r}")
    for j, variable in enumerate(instance.variables):
        if is_choice(variable):
            kinds += [f" G l{j}", f" L u{j}"]
    return kinds, sides, ranges


def end_lines(columns):
    lines = []
    for j, (_, low, high) in enumerate(columns):
        if low is None and high is None:
            lines.append(f" FR BND x{j}")
            continue
        lines.append(f" MI BND x{j}" if low is None else f" LO BND x{j} {float(low)!r}")
        lines.append(f" PL BND x{j}" if high is None else f" UP BND x{j} {float(high)!r}")
    return lines


def mps(instance):
    """A program with its first goal, to be minimised, in free MPS; its columns are x0, x1 and so on."""
    goal, entries = instance.goals[0], columns_of(instance)
    columns = [(variable.whole, *relaxed(variable)) for variable in instance.variables]
    columns += [(True, 0, 1) for variable in instance.variables if is_choice(variable)]
    kinds, sides, ranges = row_lines(instance)
    lines, is_whole = ["NAME program", "ROWS", *kinds, "COLUMNS"], False
    for j, (whole, _, _) in enumerate(columns):
        if whole != is_whole:
            lines.append(f" M{j} 'MARKER' '{'INTORG' if whole else 'INTEND'}'")
            is_whole = whole
        cost = goal.costs.get(j, 0)
        lines.append(f" x{j} goal {float(-cost if goal.maximise else cost)!r}")
        lines += [f" x{j} {row} {float(factor)!r}" for row, factor in entries[j]]
    lines += [" ME 'MARKER' 'INTEND'"] * is_whole
    lines += ["RHS", *sides, *(["RANGES", *ranges] if ranges else []), "BOUNDS", *end_lines(columns), "ENDATA", ""]
    return "\n".join(lines)


def cbc_point(text, count):
    """The point in a solution of CBC's: a line that says how it ended, and then a line for each column that isn't 0."""
    first, *lines = text.splitlines()
    point = [0.0] * count
    for line in lines:
        words = line.replace("**", " ").split()
        column = int(words[1].removeprefix("x"))
        if column < count:
            point[column] = float(words[2])
    return point if "nfeasible" not in first and "nbounded" not in first else None


def glpsol_point(text, count):
    """The point in a solution in GLPK's own format (routines `glp_write_sol` and `glp_write_mip`)."""
    point, value_at = [0.0] * count, 3
    for line in text.splitlines():
        words = line.split()
        if words[:1] == ["s"]:
            is_mip = words[1] == "mip"
            value_at, states = (2, words[4]) if is_mip else (3, words[4] + words[5])
            if set(states) - set("of"):
                return None
        if words[:1] == ["j"] and int(words[1]) <= count:
            point[int(words[1]) - 1] = float(words[value_at])
    return point


def highs_point(text, count):
    """The point in a solution of HiGHS's: the lines of columns behind `# Columns`."""
    lines = text.splitlines()
    at = next(k for k, line in enumerate(lines) if line.startswith("# Columns"))
    point = [0.0] * count
    for line in lines[at + 1 : at + 1 + int(lines[at].split()[2])]:
        name, value = line.split()
        if int(name.removeprefix("x")) < count:
            point[int(name.removeprefix("x"))] = float(value)
    return point


# name, words of a run, how its solution is read
SOLVERS = [
    ("highs", lambda mps_file, out, seconds: ["--time_limit", str(seconds), "--solution_file", out, mps_file], highs_point),
    ("cbc", lambda mps_file, out, seconds: [mps_file, "-sec", str(seconds), "-primalTolerance", "1e-9", "solve", "-solu", out], cbc_point),
    ("glpsol", lambda mps_file, out, seconds: ["--freemps", mps_file, "--tmlim", str(max(1, round(seconds))), "-w", out], glpsol_point),
]


# what a solver writes where it says that no point is better
OPTIMAL = {"highs": "^Optimal$", "cbc": "^Optimal", "glpsol": r"^s (?:mip \d+ \d+ o|bas \d+ \d+ f f) "}


def limited():
    resource.setrlimit(resource.RLIMIT_FSIZE, (MOST_FILE, MOST_FILE))


class Children:
    """Processes that are ended with all that they started, whatever happens."""

    def __init__(self):
        self.running = []

    def start(self, words, before=None, **given):
        """Starts one, which first does what is to be done before. A signal that comes meanwhile waits until the process is known."""
        with held_signals() as let_go:
            steps = [step for step in (before, let_go) if step]
            process = subprocess.Popen(words, start_new_session=True, preexec_fn=(lambda: [step() for step in steps]) if steps else None, **given)
            self.running.append(process)
        return process

    def end(self, process):
        try:
            os.killpg(process.pid, signal.SIGKILL)
        except ProcessLookupError:
            pass
        process.wait()
        for stream in (process.stdin, process.stdout):
            if stream:
                stream.close()
        self.running.remove(process)

    def end_all(self):
        for process in list(self.running):
            self.end(process)


def installed():
    """The names of the solvers that are there, the best finders first."""
    return [name for name, _, _ in SOLVERS if shutil.which(name)]


class Asked:
    """A solver that was started, with the file that it is to write."""

    def __init__(self, name, mps_file, seconds, children, folder):
        self.name, self.out, self.children, self.note = name, f"{folder}/{name}.solution", children, None
        words, self.read = next((words, read) for other, words, read in SOLVERS if other == name)
        given = {"stdin": subprocess.DEVNULL, "stdout": subprocess.DEVNULL, "stderr": subprocess.DEVNULL, "before": limited, "cwd": folder}
        try:
            self.process = children.start([name, *words(mps_file, self.out, seconds)], **given)
        except OSError as error:
            self.process, self.note = None, f"{name} can't be run: {error.strerror.lower()}"

    def is_running(self):
        return self.process is not None and self.process.poll() is None

    def end(self):
        if self.process is not None:
            self.children.end(self.process)
            self.process = None

    def point(self, count):
        """The point that it has written, and whether it says that none is better; or none."""
        try:
            with open(self.out, encoding="utf-8") as it:
                text = it.read(MOST_FILE)
            point = self.read(text, count)
        except FileNotFoundError:
            return None, False
        except (ValueError, IndexError, StopIteration):
            self.note = f"{self.name} writes what is no solution"
            return None, False
        if point is None or not all(abs(value) < 1e30 for value in point):
            return None, False
        return point, any(re.search(OPTIMAL[self.name], line) for line in text.splitlines())


def points_by(names, mps_file, count, seconds, children, folder):
    """The points that solvers find side by side, until one says that none is better, and notes of those that gave none. What is said is
    only what ends the race."""
    asked = [Asked(name, mps_file, seconds, children, folder) for name in names]
    points, end, waiting = [], time.monotonic() + seconds + PATIENCE, list(asked)
    try:
        while waiting:
            is_late = time.monotonic() > end
            for each in [each for each in waiting if is_late or not each.is_running()]:
                waiting.remove(each)
                is_ended = not each.is_running()
                each.end()
                point, is_best = each.point(count)
                if point:
                    points.append(point)
                else:
                    each.note = each.note or (f"{each.name} gives no point" if is_ended else f"{each.name} was ended: it took longer than {seconds + PATIENCE:g} s")
                if is_best:
                    return points, []
            time.sleep(0.01 if waiting else 0)
    finally:
        for each in asked:
            each.end()
    return points, [each.note for each in asked if each.note]
