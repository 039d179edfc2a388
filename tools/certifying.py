"""Finds an answer of a program with solvers that work with floats, and a certificate by which the checker accepts it.

The core (`tools/certify_core`) makes exact what floats find; solvers that are installed find points for it; where that doesn't decide, the
program's own search has the seconds that are left; the checker decides. Nothing here is trusted but the checker: where it refuses a claim a
weaker one is made, and what it doesn't accept isn't told as an answer.
"""

import fractions
import os
import re
import shutil
import subprocess
import sys
import time

import float_solvers
import job_documents
import lp_reader
import mps_reader
import result_text
from linear_program import Complaint, Unread, osil, read_bytes, read_text, write_whole
from gubnatris import instances
from gubnatris.program import used_folder

HERE = os.path.dirname(os.path.abspath(__file__))
CORE_FOLDER = f"{HERE}/certify_core/out"
FIRST_WORK = 2e7  # of the core before other solvers are asked, in its own measure: about half a second
MOST_WORK = 1e300  # none but the time ends it then
SHARE = 0.2  # of the seconds that are left, for each of these solvers
LEAST_SECONDS = 1.0
PARTS = ("point", "value", "ray", "bound", "rounds", "tree", "cause")
WHOLE = ("accepted optimal", "accepted infeasible", "accepted unbounded")
WHY = {  # a search ended early, by the first word of its cause
    "killed": "the time is over",
    "length": "what shows it is longer than a document may be",
    "wide": "a number that it takes passes 128 bits, or its steps can't be made exact",
}


class Wanting(Exception):
    """What has to be there and isn't, in one line."""


def program_of_checker():
    """The program whose `check` decides: that of OS_PROGRAM, else the one that `./os` has built, else an installed one."""
    given = os.environ.get("OS_PROGRAM")
    built = os.path.join(os.path.dirname(HERE), "crates", "os_main", "out", "os_main")
    for path in [given] if given else [built, shutil.which("gubnatris"), shutil.which("os_main")]:
        if path and os.path.isfile(path) and os.access(path, os.X_OK):
            return os.path.abspath(path)
    if given:
        raise Wanting(f"{given} isn't a program, and its `check` has to decide")
    raise Wanting("no program is there whose `check` decides: run ./os once, which builds it, or name one by OS_PROGRAM")


def core():
    """The core, built where it isn't yet or is older than its sources."""
    path = f"{CORE_FOLDER}/certify_core"
    sources = [f"{HERE}/certify_core/{name}" for name in os.listdir(f"{HERE}/certify_core") if name.endswith((".cpp", ".hpp", "Makefile"))]
    if os.path.exists(path) and all(os.path.getmtime(path) >= os.path.getmtime(source) for source in sources):
        return path
    print("certify: its core is built, once; that takes less than a minute", file=sys.stderr)
    children = float_solvers.Children()  # a build that is ended leaves no compiler behind
    try:
        build = children.start(["bash", f"{HERE}/certify_core/build.sh", CORE_FOLDER], stdin=subprocess.DEVNULL, stdout=subprocess.PIPE, stderr=subprocess.STDOUT)
        told = build.stdout.read().decode(errors="replace").strip() or "no reason told"
        status = build.wait()
    finally:
        children.end_all()
    if status != 0 or not os.path.exists(path):
        raise Wanting(f"its core can't be built: {told.splitlines()[-1]}")
    return path


def mps_program(text, words):
    """An MPS file's program; where it isn't fixed MPS, the one that it is as free MPS."""
    try:
        return mps_reader.read(text, words)
    except Complaint as fixed:
        try:
            return mps_reader.read(text, {*words, "--free"})
        except Complaint as free:
            raise (free if "is it free MPS?" in str(fixed) else fixed) from free


def as_osil(path, words, folder):
    """The path of an OSiL document of a model, and notes of how it was read: `.mps` and `.lp` are converted."""
    end = os.path.splitext(path)[1].lower()
    if end not in (".mps", ".lp"):
        read_bytes(path)
        return path, []
    text = read_text(path)
    program = lp_reader.read(text, set()) if end == ".lp" else mps_program(text, words)
    program.name = program.name or os.path.basename(path).split(".")[0]
    out = f"{folder}/model.osil"
    write_whole(osil(program), out)
    return out, program.notes


def end_text(value):
    return "none" if value is None else str(value)


def core_text(instance, points):
    """A program and points as the core reads them."""
    lines = [f"{len(instance.variables)} {len(instance.rows)} {len(instance.goals)}"]
    lines += [f"{'CIDJ'[v.whole + 2 * v.zero]} {end_text(v.low)} {end_text(v.high)}" for v in instance.variables]
    for goal in instance.goals:
        costs = "".join(f" {j} {cost}" for j, cost in goal.costs.items())
        lines.append(f"{'max' if goal.maximise else 'min'} {goal.constant} {len(goal.costs)}{costs}")
    for row, factors in zip(instance.rows, instance.factors):
        entries = "".join(f" {j} {factor}" for j, factor in factors.items())
        lines.append(f"{end_text(row.low)} {end_text(row.high)} {len(factors)}{entries}")
    lines += [str(len(points)), *(" ".join(map(repr, point)) for point in points)]
    return "\n".join([*lines, ""])


def named_point(path, instance):
    """A point in a file: of a result document, or in lines of a variable's name and its value; variables that aren't named are 0."""
    text = read_text(path)
    if text.lstrip().startswith("<"):
        result = job_documents.result_of(path, instance)
        if result.point is None:
            raise Complaint("it is a result without a point")
        return [float(value) for value in result.point]
    numbers = {variable.name: j for j, variable in enumerate(instance.variables)}
    point = [0.0] * len(instance.variables)
    for k, line in enumerate(text.splitlines(), 1):
        words = line.strip().rsplit(None, 1)  # a name may have spaces
        if not words or words[0].startswith("#"):
            continue
        if len(words) != 2 or words[0] not in numbers:
            raise Complaint(f"line {k} isn't the name of a variable and its value")
        try:
            point[numbers[words[0]]] = float(instances.decimal(words[1], f"the value in line {k}") if "/" not in words[1] else fractions.Fraction(words[1]))
        except (ValueError, ArithmeticError) as error:
            raise Complaint(f"the value in line {k} is {words[1][:40]!r}, which is no number") from error
    return point


class Certifying:
    """A run: a model's path, how many seconds it may take, and where it tells how far it is."""

    def __init__(self, path, seconds, seed, words, show):
        self.path, self.seconds, self.seed, self.words, self.show = path, seconds, seed, words, show
        self.children, self.notes = float_solvers.Children(), []
        self.program, self.core = program_of_checker(), None
        self.begun = time.monotonic()

    def used_core(self):
        """The core. Where it has to be built first, the model and the point were read by then, and that takes nothing of the seconds."""
        if self.core is None:
            before = time.monotonic()
            self.core = core()
            self.begun += time.monotonic() - before
        return self.core

    def spent(self):
        return time.monotonic() - self.begun

    def left(self):
        """The seconds that are left of what it may take."""
        return self.seconds - self.spent()

    def begin(self, folder):
        """Reads the model, as OSiL that the checker reads."""
        self.folder = folder
        self.osil, notes = as_osil(self.path, self.words, folder)
        self.notes += notes
        self.instance = None
        answer = self.checked("unsure", {"cause": ["killed"]})
        if answer != "refused NoClaim":
            raise Complaint(f"it is refused: {answer.removeprefix('refused Instance ')}")
        self.instance = job_documents.instance_of(self.osil)

    def checked(self, claim, parts):
        """What the checker answers of a claim."""
        self.text = result_text.osrl(claim, parts)
        with open(f"{self.folder}/result.osrl", "w", encoding="utf-8") as it:
            it.write(self.text)
        ran = self.ran([self.program, "check", self.osil, f"{self.folder}/result.osrl"])
        lines = ran.splitlines()
        if len(lines) != 1 or not re.match("accepted |refused ", lines[0]):
            raise Wanting(f"{self.program} is no checker: of `check` it says {lines[:1]}")
        return lines[0]

    def ran(self, words):
        process = self.children.start(words, stdin=subprocess.DEVNULL, stdout=subprocess.PIPE, stderr=subprocess.DEVNULL)
        try:
            return process.stdout.read().decode(errors="replace")
        finally:
            self.children.end(process)

    def core_claim(self, points, work):
        """The kind of claim that the core makes within the seconds that are left, and the parts of its certificate."""
        with open(f"{self.folder}/program", "w", encoding="ascii") as it:
            it.write(core_text(self.instance, points))
        words = [self.used_core(), f"{max(LEAST_SECONDS, self.left()):.2f}", f"{work:g}", str(self.seed), "tells" if self.show else "quiet"]
        with open(f"{self.folder}/program", "rb") as given:
            process = self.children.start(words, stdin=given, stdout=subprocess.PIPE, stderr=subprocess.DEVNULL)
        claim, parts = "unsure", {}
        try:
            for line in process.stdout:
                name, _, rest = line.decode().rstrip("\n").partition(" ")
                if name == "progress":
                    self.show(rest, self.spent())
                elif name == "claim":
                    claim = rest
                elif name in PARTS:
                    parts.setdefault(name, []).append(rest)
        finally:
            self.children.end(process)
        if claim in ("optimal", "unbounded", "bestSoFar"):
            parts.setdefault("point", [])  # of no variables
        return claim, {name: parts[name] for name in PARTS if name in parts}

    def points_of_solvers(self, seconds):
        """Points of the solvers that are installed."""
        names = float_solvers.installed()
        if not names:
            self.notes.append("no solver is installed that finds points: CBC (coinor-cbc) or GLPK (glpk-utils) helps")
            return []
        with open(f"{self.folder}/program.mps", "w", encoding="ascii") as it:
            it.write(float_solvers.mps(self.instance))
        points, notes = float_solvers.points_by(names, f"{self.folder}/program.mps", len(self.instance.variables), seconds, self.children, self.folder)
        self.notes += notes
        return points

    def answer(self, points):
        """The answer of the checker to the best claim that is found. The text of the result stays."""
        claim, parts = self.core_claim(points, FIRST_WORK if self.has_cases() else MOST_WORK)
        if claim in ("bestSoFar", "unsure") and self.has_cases() and self.left() > 0:
            found = [[float(fractions.Fraction(value)) for value in parts["point"]]] if "point" in parts else []
            found += points + self.points_of_solvers(max(LEAST_SECONDS, SHARE * self.left()))
            claim, parts = self.core_claim(found, MOST_WORK)
        exact = self.exact_answer() if claim in ("bestSoFar", "unsure") and self.left() > 0 else None
        if exact:
            return exact
        if claim in ("bestSoFar", "unsure"):
            cause = parts.setdefault("cause", ["wide 1 0 check"])[0]
            self.notes.append(f"it isn't decided: {WHY.get(cause.partition(' ')[0], 'its search ended')}")
        return self.accepted(claim, parts)

    def exact_answer(self):
        """What the checker accepts of the program's own search in the seconds that are left, where that is a whole answer; else none. Of a
        small program it is found where floats lead to numbers that are too wide."""
        path = f"{self.folder}/exact.osrl"
        with open(path, "wb") as out:
            process = self.children.start([self.program, "solve", self.osil], stdin=subprocess.DEVNULL, stdout=out, stderr=subprocess.DEVNULL)
        try:
            process.wait(timeout=max(LEAST_SECONDS, self.left()))
        except subprocess.TimeoutExpired:
            return None
        finally:
            self.children.end(process)
        answer = self.ran([self.program, "check", self.osil, path]).strip()
        if answer not in WHOLE:
            return None
        self.text = read_text(path)
        return answer

    def has_cases(self):
        return any(variable.whole or variable.zero for variable in self.instance.variables)

    def accepted(self, claim, parts):
        """What the checker accepts of a claim, or less of it."""
        if claim not in ("bestSoFar", "unsure") or "bound" in parts:
            answer = self.checked(claim, parts)
            if answer.startswith("accepted"):
                return answer
            self.notes.append(f"its claim {claim} was {answer}, so less is claimed")
        less = {name: parts[name] for name in ("point", "value") if name in parts} | {"cause": parts.get("cause", ["wide 1 0 check"])}
        answer = self.checked("bestSoFar", less) if "point" in parts else ""
        return answer if answer.startswith("accepted") else self.nothing(less["cause"])

    def nothing(self, cause):
        self.checked("unsure", {"cause": cause})
        return None


def certify(path, seconds, seed, words, point, result, show):
    """The answer of the checker to what was found of a model, or none, and notes; the result is written where that is asked."""
    run = Certifying(path, seconds, seed, words, show)
    with used_folder("certify-") as folder:
        try:
            run.begin(folder)
            points = []
            if point:
                try:
                    points = [named_point(point, run.instance)]
                except Complaint as error:
                    raise Wanting(f"{point}: {error}") from error
            answer = run.answer(points)
        finally:
            run.children.end_all()
        if result:
            write_whole(run.text, result)
    return answer, run.notes


__all__ = ["certify", "Wanting", "Complaint", "Unread"]
