"""Tries `solve_apart`: programs of each kind beside one `solve`, servers that die, answer wrongly, are full or slow, a tool that is killed and
started again, and words and files that are refused.

    python3 tools/try_apart.py
"""

import contextlib
import io
import json
import os
import re
import shutil
import signal
import subprocess
import sys
import tempfile
import time
from fractions import Fraction
from pathlib import Path

import apart
import gubnatris
import parts
import programs
import solve_apart_command
from gubnatris.instances import read_instance
from odd_servers import EndingEarly, Lying, Slow, ended_by_length, ended_with_bound
from part_seats import Answerer
from part_workers import Checker, Jobs, Outcome
from serving import PROGRAM, Server

TOOL = "tools/solve_apart"
LONGEST = 900  # seconds that one run may take, on a machine with much other work
os.environ["TRY_APART"] = str(os.getpid())  # by which the processes are known that were started for this trial
MARK = f"TRY_APART={os.getpid()}"
WIDE = programs.Program(  # rows whose factors have so many digits that what is formed of them passes 128 bits
    "wide", False, [(0, None, True)] * 3, [(10**15 + 37, None, {0: 10**14 + 31, 1: 10**14 + 67, 2: 10**13 + 37}), (10**15 + 91, None, {0: 10**13 + 51, 1: 10**14 + 97, 2: 10**14 + 99})], [10**14 + 3, 10**14 + 9, 10**14 + 21]
)
# Names without the answers: three goals, the last of which has no end; and one whose relaxation has no end, but for whole numbers no point
LATER_ENDLESS = programs.Program("later endless", False, [(0, 3, True), (0, None, False)], [], [1, 0], later=([0, -1],))
# The least 2 x, then the least y, where 4 x - 8 y is at least 2: 2 where y is 0, and 6 where it is 1, each by a low sum that is rounded up, of 1 and of 5
ON_A_GRID = programs.Program("on a grid", False, [(0, 10, True), (0, 1, True)], [(2, None, {0: 4, 1: -8})], [2, 0], later=([0, 1],))
THINGS = programs.knapsack(20, 2)
ONLY_RELAXED = programs.Program("only relaxed", True, [(0, None, True), (0, None, True)], [(1, 1, {0: 2, 1: -2})], [1, 1])


class Found:
    passed = failed = 0


def is_so(what, found):
    Found.passed, Found.failed = Found.passed + bool(found), Found.failed + (not found)
    print(f"{'ok' if found else 'FAILED'}: {what}", flush=True)


def run(*words):
    return subprocess.run([TOOL, *words], capture_output=True, text=True, timeout=LONGEST, check=False)


def last(ran):
    return (ran.stderr.strip().splitlines() or [""])[-1]


class Case:
    """An instance in a folder of its own, with the result that the tool writes."""

    def __init__(self, folder, name, osil):
        self.osil, self.osrl = os.path.join(folder, f"{name}.osil"), os.path.join(folder, f"{name}.osrl")
        Path(self.osil).write_text(osil, encoding="utf-8")

    def solve(self, *words):
        return run(self.osil, "--output", self.osrl, *words)

    def line(self):
        return subprocess.run([PROGRAM, "check", self.osil, self.osrl], capture_output=True, text=True, check=False).stdout.strip()

    def single(self):
        """What one `solve` says of it: the status and the values."""
        return told(subprocess.run([PROGRAM, "solve", self.osil], capture_output=True, text=True, check=False).stdout)

    def told(self):
        return told(Path(self.osrl).read_text(encoding="utf-8"))


def told(document):
    result = gubnatris.read_result(document)
    return result.status, result.objectives


class Still:
    """A seat that has what it is given and does nothing, and a folder that keeps nothing."""

    kinds, task, is_out, entries, worked, failures = ("bound", "search"), None, False, {}, 0.0, 0

    def is_free(self):
        return self.task is None

    def give(self, task):
        self.task = task

    def stop(self):
        if self.task:
            self.task.is_stopped = True

    def write(self, _):
        pass


def division(program, coarse=None):
    return apart.Division(read_instance(programs.osil(program).encode()), Still(), [Still(), Still()], None, lambda _: None, coarse=coarse)


def rules(_):
    """The rules by which parts are given out, each by itself: those that are held stay once, a better point stops what it closes, and a bound that
    comes late ends nothing and delays nothing."""
    it = division(programs.general_assignment(4, 12), coarse=6)
    it.root.is_searched = True
    it.resume(it.root)
    for _ in range(400):
        part = it.next_open()
        if part:
            it.keep_branch(part, apart.middle_branch(parts.with_branches(it.instance.variables, part.branches)))
    is_so(f"of {len(it.open)} parts that are held {len(it.heap)} and {len(it.deep)} wait, behind 400 looks", 6 <= len(it.open) <= 8 and len(it.heap) + len(it.deep) < 40)
    two = programs.Program("two", True, [(0, 1, True)] * 2, [(None, 1, {0: 1, 1: 1})], [1, 1])
    it = division(two)
    it.resume(it.root)
    it.give_work()
    it.root.raise_bound(Fraction(-1), ("bound 2:1",))
    tasks = [seat.task for seat in it.seats]
    it.offer((1, 0))
    is_so("a point that closes a part stops who searches it, and who bounds it", {task.kind for task in tasks} == {"search", "bound"} and all(task.is_stopped for task in tasks))
    it = division(two)
    it.resume(it.root)
    it.next_open()
    it.root.raise_bound(Fraction(-2), ("bound",))
    it.keep_branch(it.root, parts.Branch(0, 0))
    it.next_open()
    it.take_early(it.root, Outcome("unsure", bound=Fraction(3, 2), trees=(("split 0 0", "bound", "bound"),)))
    is_so("a bound that a search of a divided part tells is taken", it.root.bound == Fraction(-3, 2) and list(it.open) == ["r0", "r1"] and it.root.children[0].key() == Fraction(-3, 2))
    for child in it.root.children:
        it.close(child, (Fraction(-1),), (("bound",),))
    it.seats[0].give(apart.Task("search", it.root, None))
    is_so("and the part is over with its cases, whoever searches it still", it.is_over())
    searches(two)


def searches(program):
    """When a part is searched though others wait to be bounded, and which isn't divided meanwhile."""
    it = division(program)
    it.resume(it.root)
    it.root.is_searched = True
    it.next_open()
    it.keep_branch(it.root, parts.Branch(0, 0))
    it.next_open()
    for child in it.root.children:
        it.keep_branch(child, parts.Branch(1, 0))
    it.spent = 2 * it.share / apart.MOST_LOST
    is_early = it.is_search_due()
    it.offer((0, 0))
    it.give_work()
    kinds_given = [seat.task.kind for seat in it.seats]
    is_so(f"a search begins once there is a point, and one at once for the time of two: {kinds_given}", not is_early and kinds_given == ["search", "search"])
    it.seats[1].task = None
    is_so("what is searched isn't divided, as long as another part waits", it.is_held(it.seats[0].task.part) and not it.is_held(it.root))
    other = next(part for part in it.root.children if part is not it.seats[0].task.part)
    it.seats[1].task = apart.Task("search", other, None)
    for seat, outcome in zip(it.seats, (Outcome("unsure", bound=Fraction(0), trees=(("bound",),)), Outcome("unsure"))):
        seat.task.begun = time.monotonic() - it.share
        it.take(seat, seat.task, outcome)
    is_so(f"of two searches the one that left its part open is lost, {it.lost:.1f} s", it.share <= it.lost < 2 * it.share and not it.is_settled(other))
    it.spent = 2 * it.share / apart.MOST_LOST
    is_early, it.spent = it.is_search_due(), it.spent + (it.lost - it.share) / apart.MOST_LOST
    is_so("and its time is to be made up for", not is_early and it.is_search_due())
    it = division(programs.with_goals(program, 2))
    it.resume(it.root)
    it.root.is_searched = True
    it.next_open()
    it.keep_branch(it.root, parts.Branch(0, 0))
    whole = it.next_open()
    it.take_leaf(whole, Outcome("optimal", (Fraction(0), Fraction(1)), (Fraction(1), Fraction(1)), trees=(("bound",),)))
    it.give_work()
    is_so("without a point a part with a whole one is searched before others are bounded", [(seat.task.kind, seat.task.part is whole) for seat in it.seats] == [("search", True), ("bound", False)])


def grids(folder):
    """Parts whose leaves are on a grid, with the multipliers of variables and without: their trees are joined on each level."""
    for leaves in ((("grid 2 1:4 2:1/2",), ("bound 1:1",)), (("gridRows 2 2:1/2",), ("boundRows",))):
        it = division(ON_A_GRID)
        it.resume(it.root)
        it.keep_branch(it.root, parts.Branch(1, 0))
        it.next_open()
        it.offer((Fraction(1), Fraction(0)))
        for child, values in zip(it.root.children, ((2, 0), (6, 1))):
            it.close(child, tuple(map(Fraction, values)), leaves)
        line = Checker(folder).line(programs.osil(ON_A_GRID), parts.result_text(it.instance, it.claim()))
        is_so(f"parts with the leaves {leaves}: {line}", line == "accepted optimal")


class Solving:
    """A worker that solves by one `solve`, with leaves of this form."""

    def __init__(self, folder, form):
        self.osil, self.osol = Path(folder, "solving.osil"), Path(folder, "solving.osol")
        self.osol.write_text(f'<osol><optimization><solverOptions><solverOption name="form" value="{form}"/></solverOptions></optimization></osol>', encoding="utf-8")

    def solve(self, osil, _):
        self.osil.write_text(osil, encoding="utf-8")
        ran = subprocess.run([PROGRAM, "solve", self.osil, "--options", self.osol], capture_output=True, text=True, check=False)
        return gubnatris.read_result(ran.stdout)


def cutoffs(folder):
    """Searches for what isn't worse than a value: what is shown so is shown without the row that says it, of every kind of leaf, up to that value;
    and what isn't translated, or is by another number, isn't shown."""
    checker, seen = Checker(folder), set()
    for program, best, other in (
        (programs.job_shop(4, 3), 49, 55), (programs.general_assignment(4, 12), 223, 230), (programs.knapsack(20, 2), -455, -440), (programs.lot_sizing(2, 4), 1859, 1900),
        (programs.Program("knapsack and a constant", True, THINGS.variables, THINGS.rows, THINGS.costs, constant=0.25), Fraction(-1821, 4), -440),
    ):
        instance = read_instance(programs.osil(program).encode())
        for form in ("whole", "rows"):
            told_of = []
            for value in (best, other, best - 1):
                it = Answerer(instance, checker, None, None)
                it.worker = Solving(folder, form)
                outcome = it.search(((), Fraction(value)), None)
                claim = parts.Claim(outcome.status, outcome.point, None, outcome.bound, outcome.trees, outcome.cause)
                told_of.append(checker.line(it.writer.text(instance.variables), parts.result_text(instance, claim)))
                seen |= {node.split(" ")[0] for node in outcome.trees[0]}
            bound = parts.turned(instance.goals[0], Fraction(best - 1))
            is_so(f"{program.name}, {form}, with cutoffs: {told_of[1:]}", told_of == ["accepted optimal"] * 2 + [f"accepted unsure within {bound}"])
    is_so(f"with the leaves {sorted(seen)}", {"bound", "boundRows", "farkas", "farkasRows", "zero"} <= seen)
    for node, size, shown in (
        ("farkas 0:1 4:-1/2", 1, "bound 0:2"), ("farkas 0:1 4:-1/2", 3, "bound 0:2/3"), ("boundRows 3:1 4:-1", 1, "boundRows 3:1/2"), ("grid 2 0:3 4:-1/2", 1, "grid 2 0:2"),
        ("farkas 0:1 3:-1/2", 1, "farkas 0:1 3:-1/2"), ("boundRows", 1, "boundRows"), ("split 4 1", 1, None), ("split 0 4", 1, "split 0 4"), ("zero 0", 1, "zero 0"),
    ):
        is_so(f"{node} without column 4, of {size} times the costs: {shown}", parts.without_cutoff(node, 4, size) == shown)


def kinds(folder):
    """Programs of each kind: the same status and values as one `solve`, and a result that the check accepts."""
    transport = programs.transport(4, 6)
    for name, program in {
        "whole variables": programs.knapsack(20, 2), "fixed charges": programs.fixed_charge(5, 7), "general assignment": programs.general_assignment(4, 12),
        "job shop": programs.job_shop(4, 3), "semi-continuous": programs.lot_sizing(2, 6), "their big-M form": programs.with_choices(programs.lot_sizing(2, 4)),
        "three goals": programs.with_goals(programs.knapsack(20, 1), 3), "two goals of a cover": programs.with_goals(programs.cover(30), 2),
        "a later goal without end": LATER_ENDLESS, "no whole variable": transport,
    }.items():
        case = Case(folder, "kind", programs.osil(program))
        ran, single = case.solve("--workers", "2"), case.single()
        is_so(f"{name}: {case.line()} {case.told()[1]}", ran.returncode == 0 and case.line() == f"accepted {single[0]}" and case.told() == single)
    for name in ("infeasible_schedule", "unlimited_trade", "knapsack", "capital_budget"):
        case = Case(folder, name, Path(f"examples/{name}.osil").read_text(encoding="utf-8"))
        ran, single = case.solve("--workers", "2"), case.single()
        is_so(f"{name}: {case.line()}", ran.returncode == 0 and case.line() == f"accepted {single[0]}" and case.told() == single)
        is_so(f"{name}: no folder is left", not os.path.exists(f"{case.osil}.parts"))
    stay_open(folder)


def stay_open(folder):
    """Programs that nobody decides: of one no tree of cases ends, since each split leaves a case without end; of one the numbers are too wide."""
    for name, program, words, says in (("only the relaxation has points", ONLY_RELAXED, ("--seconds", "10"), "unsure"), ("numbers that are too wide", WIDE, (), "part r stays open: wide")):
        case = Case(folder, "open", programs.osil(program))
        ran = case.solve("--workers", "2", *words)
        is_so(f"{name}: {last(ran)[:90]}", ran.returncode == 1 and case.told()[0] == "unsure" and says in ran.stderr and "Traceback" not in ran.stderr)
        shutil.rmtree(f"{case.osil}.parts")


def lies(case):
    """Documents that aren't right for a part: each is found by the check, and its server is left out."""
    right = subprocess.run([PROGRAM, "solve", case.osil], capture_output=True, text=True, check=False).stdout
    other = subprocess.run([PROGRAM, "solve", "examples/knapsack.osil"], capture_output=True, text=True, check=False).stdout
    tree = re.compile(r'(name="os_cert.tree">).*?(</otherSolutionResult>)', re.S)
    yield "a result of another instance", other
    yield "an optimum that isn't one", tree.sub(r"\1<item>bound</item>\2", right)
    yield "a tree without a node", tree.sub(r"\1\2", right)
    yield "a document that is none", "<a/>"
    yield "a running job for ever, and then unknown", "<osrl><general><generalStatus type=\"error\"/></general><job><status>unknown</status></job></osrl>"


def servers(folder):
    """Servers of others: two; ones that lie, are full or slow, or whose searches end early; one that is killed, and nobody."""
    case = Case(folder, "served", programs.osil(programs.general_assignment(4, 12)))
    value = case.single()
    with Server(1, 16) as one, Server(1, 16) as two:
        urls = [f"http://127.0.0.1:{it.port}" for it in (one, two)]
        ran = case.solve("--servers", ",".join(urls), "--workers", "1")
        is_so(f"two servers: {case.line()} {case.told()}", ran.returncode == 0 and case.line() == "accepted optimal" and case.told() == value)
        states = [gubnatris.Server(url).jobs() for url in urls]
        is_so(f"no job is left at them, of {[it.total for it in states]}", all(not it.states and it.total for it in states))
        for name, document in lies(case):
            with Lying(document) as liar:
                ran = case.solve("--servers", f"{liar.url},{urls[0]}", "--workers", "1")
                is_told = f"{liar.url} is left out: its answer" in ran.stderr if 'type="' in document and "unknown" not in document else f"{liar.url}: " in ran.stderr
                is_so(f"{name}: {case.line()}, asked {liar.asked} times", ran.returncode == 0 and case.told() == value and is_told and 0 < liar.asked)
        full_or_slow(case, value, one)
        end_early(folder, one)
        left_running(folder, urls[0])
        dies(folder, urls, two)
    ran = case.solve("--servers", urls[0])
    is_so(f"no server is there: {last(ran)[:100]}", ran.returncode == 1 and "Traceback" not in ran.stderr)
    shutil.rmtree(f"{case.osil}.parts")


def full_or_slow(case, value, right):
    """A server that is full, beside a right one and alone; and one that answers each call a second later."""
    url = f"http://127.0.0.1:{right.port}"
    with Lying(None) as full:
        ran = case.solve("--servers", f"{full.url},{url}", "--workers", "1")
        is_so(f"a server that is full: {case.line()}", ran.returncode == 0 and case.told() == value and "Server.Full" in ran.stderr)
        ran = case.solve("--servers", full.url)
        is_so(f"nobody else: {last(ran)[:100]}", ran.returncode == 1 and "Traceback" not in ran.stderr and "nobody is left" in ran.stderr)
        shutil.rmtree(f"{case.osil}.parts")
    with Slow(right.port, 1.0) as slow:
        ran = case.solve("--servers", f"{slow.url},{url}", "--workers", "1")
        is_so(f"a server that is slow, asked {slow.asked} times: {case.line()}", ran.returncode == 0 and case.told() == value and slow.asked and "left out" not in ran.stderr)


def end_early(folder, right):
    """Servers whose searches all end early: the parts alone show the whole; and where the searches tell bounds, these join."""
    case = Case(folder, "early_served", programs.osil(programs.fixed_charge(5, 7)))
    value = case.single()
    with EndingEarly(right.port, ended_by_length) as server:
        ran = case.solve("--servers", server.url, "--workers", "3")
        searched = int(re.search(r"(\d+) searched", last(ran)).group(1))
        is_so(f"{searched} searches that are too long: {case.line()}", ran.returncode == 0 and case.line() == "accepted optimal" and case.told() == value and searched)
    with EndingEarly(right.port, ended_with_bound) as server:
        words = ("--servers", server.url, "--workers", "3", "--folder", f"{case.osil}.kept")
        with subprocess.Popen([TOOL, case.osil, "--output", case.osrl, *words], stderr=subprocess.PIPE, text=True) as process:
            nodes = joined_nodes(Path(f"{case.osil}.kept/found"), process)
            process.terminate()
            text = process.communicate(timeout=LONGEST)[1]
        told_of = re.fullmatch(r"accepted (?:bestSoFar|unsure) within (\S+)", case.line())
        is_so(f"a bound of {nodes} nodes joins: {case.line()}", nodes > 1 and (told_of and f"none better than {told_of.group(1)} " in text or case.line() == "accepted optimal"))
        ran = case.solve(*words)
        is_so(f"and the run that goes on with it: {case.line()}", ran.returncode == 0 and case.line() == "accepted optimal" and case.told() == value)


def joined_nodes(found, process):
    """Waits until a part of the folder is bounded by more than one node, as far as the tool works so long; by how many."""
    limit, most = time.monotonic() + LONGEST, 0
    while most < 2 and process.poll() is None and time.monotonic() < limit:
        time.sleep(0.05)
        lines = found.read_text(encoding="utf-8").split("\n")[:-1] if found.exists() else []
        most = max((len(json.loads(line).get("leaf", ())) for line in lines), default=0)
    return most


def busy_since(url, before, process):
    """Waits until a server has taken three more jobs, and has one; whether it came to that while the tool worked."""
    limit = time.monotonic() + LONGEST
    while process.poll() is None and time.monotonic() < limit:
        jobs = gubnatris.Server(url).jobs()
        if jobs.total >= before + 3 and jobs.states:
            return True
        time.sleep(0.02)
    return False


def left_running(folder, url):
    """A job that a killed run left at a server, and that runs there still, is asked to stop and given up; a line that was cut short isn't read."""
    server, path, limit = gubnatris.Server(url), Path(folder, "left"), time.monotonic() + LONGEST
    job = server.submit(programs.osil(programs.job_shop(6, 4)), node_limit=10**6, turn_limit=10**8)
    while server.state(job) != "running" and time.monotonic() < limit:
        time.sleep(0.02)
    path.write_text(f"+ {url} {job}\n+ {url} os-9", encoding="utf-8")
    count = Jobs(str(path)).give_up_left()
    is_so(f"{count} job that still runs is given up", count == 1 and not server.jobs().states and not path.read_text(encoding="utf-8"))


def dies(folder, urls, server):
    """The tool is killed while jobs of it are at two servers, and started again; then one server is, with its parts."""
    case = Case(folder, "dying", programs.osil(programs.fixed_charge(9, 12)))
    words = [TOOL, case.osil, "--output", case.osrl, "--servers", ",".join(urls)]
    before = gubnatris.Server(urls[1]).jobs().total
    with subprocess.Popen([*words, "--quiet"]) as process:
        is_busy = busy_since(urls[1], before, process)
        process.kill()
    before = gubnatris.Server(urls[1]).jobs().total
    with subprocess.Popen(words, stderr=subprocess.PIPE, text=True) as process:
        is_busy &= busy_since(urls[1], before, process)
        server.process.send_signal(signal.SIGKILL)
        text = process.communicate(timeout=LONGEST)[1]
    is_so("a tool that was killed gives up the jobs that it left", is_busy and re.search(r"\d+ jobs of a run that was killed are given up", text))
    is_so(f"a server is killed with its parts: {case.line()}", process.returncode == 0 and case.told() == ("optimal", (938,)) and "asked again" in text)
    left = gubnatris.Server(urls[0]).jobs().states  # a kill between a server's answer and its reading may leave a number, to which nothing was sent
    is_so(f"no instance is left at the other one: {left}", set(left.values()) <= {"issued"})


def families():
    """The processes that the tool's rooms and servers are."""
    return [pid for pid in os.listdir("/proc") if pid.isdigit() and is_mine(pid)]


def is_mine(pid):
    try:
        words = Path(f"/proc/{pid}/cmdline").read_bytes().split(b"\0")
        is_kind = words[1:2] == [b"serve"] or words[1:2] and words[1].endswith(b"part_room.py")
        return is_kind and MARK.encode() in Path(f"/proc/{pid}/environ").read_bytes().split(b"\0")
    except OSError:
        return False


def rooms_of(process):
    """The processes of a tool's rooms."""
    children = Path(f"/proc/{process.pid}/task/{process.pid}/children").read_text(encoding="ascii").split()
    return [int(pid) for pid in children if b"part_room.py" in Path(f"/proc/{pid}/cmdline").read_bytes()]


def room_dies(folder):
    """A process of the tool's own is killed with the parts that it has: it is begun anew."""
    case = Case(folder, "room", programs.osil(programs.fixed_charge(9, 12)))
    found, limit = Path(f"{case.osil}.parts/found"), time.monotonic() + LONGEST
    with subprocess.Popen([TOOL, case.osil, "--output", case.osrl, "--workers", "2"], stderr=subprocess.PIPE, text=True) as process:
        while (not found.exists() or '"branch"' not in found.read_text(encoding="utf-8")) and process.poll() is None and time.monotonic() < limit:
            time.sleep(0.02)
        for pid in rooms_of(process):
            os.kill(pid, signal.SIGKILL)
        text = process.communicate(timeout=LONGEST)[1]
    is_so(f"rooms are killed with their parts: {case.line()}", process.returncode == 0 and case.told() == ("optimal", (938,)) and "its process ended; it is asked again" in text)


def are_gone():
    """Whether none of them is left, which the system may take a moment for."""
    limit = time.monotonic() + 60
    while families() and time.monotonic() < limit:
        time.sleep(0.1)
    return not families()


def goes_on(folder):
    """A tool that is killed while it works, and started again; one that is asked to end."""
    case = Case(folder, "again", programs.osil(programs.general_assignment(5, 25)))
    value = case.single()
    found, limit = Path(f"{case.osil}.parts/found"), time.monotonic() + LONGEST
    process = subprocess.Popen([TOOL, case.osil, "--output", case.osrl, "--workers", "2", "--quiet"], stderr=subprocess.DEVNULL)
    while (not found.exists() or len(found.read_text(encoding="utf-8").splitlines()) < 10) and process.poll() is None and time.monotonic() < limit:
        time.sleep(0.02)
    process.kill()
    process.wait()
    is_so(f"killed with {len(found.read_text(encoding='utf-8').splitlines())} finds, and none of its servers is left", are_gone())
    with found.open("a", encoding="utf-8") as file:
        file.write('{"part": "r0", "clo')  # as a kill within a write leaves it
    before = sum('"branch"' in line or '"closed"' in line for line in found.read_text(encoding="utf-8").splitlines())
    ran = case.solve("--workers", "2")
    bounded = int(re.search(r"(\d+) bounded", ran.stderr).group(1))
    is_so(f"started again: {case.line()} {case.told()}, {before} parts kept, {bounded} bounded", ran.returncode == 0 and case.line() == "accepted optimal" and case.told() == value and before >= 5)
    room_dies(folder)
    other = Case(folder, "other", programs.osil(programs.general_assignment(4, 12)))
    other.solve("--workers", "1", "--folder", f"{folder}/kept")
    ran = case.solve("--workers", "1", "--folder", f"{folder}/kept")
    is_so(f"a folder of another instance: {last(ran)[-90:]}", ran.returncode == 1 and "of another instance" in ran.stderr and len(ran.stderr.splitlines()) == 1)
    ends_early(folder)


def ends_early(folder):
    """An instance that no search ends soon: the best point, and a bound that the parts show."""
    case = Case(folder, "early", programs.osil(programs.job_shop(6, 4)))
    for seconds in ("10", "90"):  # the second where a machine with much other work finds no point in the first
        ran = case.solve("--workers", "2", "--seconds", seconds)
        if case.told()[0] == "bestSoFar":
            break
    is_so(f"{seconds} seconds: {last(ran)[:130]}", ran.returncode == 0 and case.line().startswith("accepted bestSoFar") and "none better than" in ran.stderr)
    document = Path(case.osrl).read_text(encoding="utf-8")
    bound = re.search(r'name="os_cert.bound"><item>([^<]*)<', document)
    is_so(f"its bound is {bound and bound.group(1)}, its value {case.told()[1]}", bound and "os_cert.tree" in document)
    process, found = subprocess.Popen([TOOL, case.osil, "--output", case.osrl, "--workers", "2"], stderr=subprocess.PIPE, text=True), Path(f"{case.osil}.parts/found")
    length, limit = found.stat().st_size, time.monotonic() + LONGEST
    while found.stat().st_size == length and time.monotonic() < limit:  # until it has found more
        time.sleep(0.1)
    process.terminate()
    text = process.communicate(timeout=LONGEST)[1]
    is_so(f"asked to end: {text.strip().splitlines()[-1][:100]}", process.returncode == 0 and case.line().startswith("accepted bestSoFar"))
    is_so("and it goes on in its folder", os.path.exists(f"{case.osil}.parts/found") and are_gone())
    shutil.rmtree(f"{case.osil}.parts")


def refused(folder):
    """Words, files and results that are told in one line."""
    usage = run()
    is_so("no words: the usage", usage.returncode == 2 and usage.stderr.startswith("usage:"))
    for words in (("a", "b"), ("a", "--workers", "0"), ("a", "--workers", "65"), ("a", "--servers", "ftp://a"), ("a", "--servers"), ("a", "--servers", ""), ("a", "--slow"), ("a", "--seconds", "x"), ("a", "--slurm", "--servers", "http://a")):
        with contextlib.redirect_stderr(io.StringIO()) as told_of:
            status = solve_apart_command.main(words)
        is_so(f"{' '.join(words)}: the usage", status == 2 and told_of.getvalue() == usage.stderr)
    bad = Case(folder, "bad", "<osil><instanceData/></osil>")
    for what, path, status, says in (
        ("a file that isn't there", f"{folder}/none", 3, "can't be read"),
        ("an instance that is refused", bad.osil, 1, "osil Missing at 2"),
        ("a folder that can't be made", "examples/knapsack.osil", 4, "/proc/none"),
    ):
        ran = run(path, *(["--folder", "/proc/none"] if status == 4 else []))
        is_so(f"{what}: {last(ran)}", ran.returncode == status and says in ran.stderr and len(ran.stderr.splitlines()) == 1 and not os.path.exists(f"{path}.parts"))


def within(case, most):
    """A run for which a result has at most so many bytes, and whose tree is always the one of a whole search: one worker begins with it."""
    code = f"import sys; sys.path[:0] = ['tools', 'clients/python']; import solve_apart_command as it; it.MOST_RESULT = {most}; sys.exit(it.main(['{case.osil}', '--output', '{case.osrl}', '--quiet', '--workers', '1', '--share', '1000']))"
    return subprocess.run([sys.executable, "-c", code], capture_output=True, text=True, timeout=LONGEST, check=False)


def long_results(folder):
    """A joined result that is too long is written by rows alone, and one that is too long then without its tree."""
    case = Case(folder, "long", programs.osil(programs.knapsack(20, 3)))
    ran = within(case, 2000)
    is_so(f"a joined result that is too long: {last(ran)[:140]}", ran.returncode == 1 and case.line() == "accepted bestSoFar" and "optimal by its parts" in ran.stderr and len(ran.stderr.splitlines()) == 1)
    value = case.single()
    whole = within(case, 10**7)
    size = os.path.getsize(case.osrl)
    is_so(f"the whole one has {size} bytes", whole.returncode == 0 and "Rows" not in Path(case.osrl).read_text(encoding="ascii"))
    ran = within(case, size * 3 // 4)
    is_so(f"by rows alone it has {os.path.getsize(case.osrl)}", ran.returncode == 0 and case.line() == "accepted optimal" and case.told() == value and "boundRows" in Path(case.osrl).read_text(encoding="ascii"))


def main():
    with tempfile.TemporaryDirectory() as folder:
        for tried in (rules, grids, cutoffs, refused, long_results, kinds, servers, goes_on):
            try:
                tried(folder)
            except (OSError, ValueError, AttributeError, subprocess.TimeoutExpired, gubnatris.Error) as failure:
                is_so(f"{tried.__name__} ended: {failure!r}"[:200], False)
    is_so("no server of the tool is left", are_gone())
    print(f"{Found.passed} passed, {Found.failed} failed")
    return Found.failed > 0


if __name__ == "__main__":
    sys.exit(main())
