"""Who solves parts: servers by the six calls, those of others or ones that are started here. What they say is checked before it is believed.

A worker's `solve` gives the result of an instance, or none where it was stopped before it began. Whatever goes wrong with a
worker is a `Failed`; where its answer isn't shown of the instance that it was given, it is `Wrong`, and nothing more is asked of it.
"""

import os
import select
import shutil
import socket
import subprocess
import tempfile
import time
from fractions import Fraction
from typing import NamedTuple, Optional

import gubnatris
import parts

BUILT = os.path.join(os.path.dirname(os.path.dirname(os.path.abspath(__file__))), "crates", "os_main", "out", "os_main")
MOST_CASES, MOST_TURNS = 1_000_000, 100_000_000
SHORTEST_PAUSE, LONGEST_PAUSE = 0.002, 0.5
LONGEST_STOP = 30  # seconds that a server may take to end a job that was killed
PAUSE_OF_STOP = 0.05  # seconds between two looks whether it has
LONGEST_CHECK = 300  # seconds that the check of one result may take
LONGEST_START = 60  # seconds that a server of this tool may take until it listens
STARTS = 5  # how often a server of this tool is started anew
FEW = ("os_cert.rounds", "os_cert.bound", 'status type="unbounded"')  # what few results have, whose certificates are read once more for it
WITH_PARENT = ("setpriv", "--pdeathsig", "KILL")  # the system ends a process when the thread ends that started it, however that comes


class Failed(Exception):
    """A worker gave no result, in one line."""


class Wrong(Failed):
    """A worker's answer isn't shown of its instance, in one line."""


class Outcome(NamedTuple):
    """What an answer shows of its instance. `bound`: a number that no point is better than, by the tree, where the program's check says so;
    `branch`: where it is to be divided, in place of its point; `document`: the answer, where it is wanted."""

    status: str
    point: Optional[tuple] = None
    values: Optional[tuple] = None
    ray: Optional[tuple] = None
    trees: tuple = ()
    cause: Optional[str] = None
    bound: Optional[Fraction] = None
    branch: Optional[parts.Branch] = None
    document: Optional[str] = None


def program():
    """The program: the one that OS_PROGRAM names, else the one that `./os` builds, else one of the PATH."""
    named = os.environ.get("OS_PROGRAM")
    found = os.path.abspath(named) if named else BUILT if os.path.exists(BUILT) else shutil.which("gubnatris") or shutil.which("os_main")
    if not found or not os.access(found, os.X_OK):
        raise Failed(f"{found or 'gubnatris'} isn't a program: let OS_PROGRAM name it, or build it by ./os")
    return found


class Checker:
    """The program's check. It says of two texts what it says of their files."""

    def __init__(self, folder):
        self.folder, self.program = folder, program()

    def line(self, osil, osrl):
        with tempfile.NamedTemporaryFile("w", dir=self.folder, suffix=".osil", encoding="utf-8") as instance:
            with tempfile.NamedTemporaryFile("w", dir=self.folder, suffix=".osrl", encoding="utf-8") as result:
                for file, text in ((instance, osil), (result, osrl)):
                    file.write(text)
                    file.flush()
                words = [self.program, "check", instance.name, result.name]
                try:
                    ran = subprocess.run(words, stdin=subprocess.DEVNULL, capture_output=True, text=True, timeout=LONGEST_CHECK, check=False)
                except subprocess.TimeoutExpired:
                    raise Failed(f"the check of a result takes longer than {LONGEST_CHECK} seconds") from None
                return ran.stdout.strip()

    def outcome(self, osil, result):
        """What a result shows of an instance. Raises `Wrong` where what it claims isn't shown."""
        line = self.line(osil, result.document)
        if line.startswith("refused") and not (result.status == "unsure" and line == "refused NoClaim"):
            raise Wrong(f"its answer is {line}")
        extra = result.certificate if any(part in result.document for part in FEW) else {}
        if result.status in ("optimal", "infeasible") and "rounds" in extra:
            raise Wrong("its answer has rounds, and none were asked for")
        accepted, _, bound = line.partition(" within ")
        if result.status != "unsure" and accepted != f"accepted {result.status}":
            raise Wrong(f"its answer is {result.status}, and the check says {line}")
        is_bounded = bool(bound) and "rounds" not in extra
        tree = result.tree or (extra.get("tree") if is_bounded or result.status == "unbounded" else None)
        trees = tuple(map(tuple, parts.levels_of(tree))) if tree else ()
        return Outcome(result.status, result.values, result.objectives, result.ray, trees, result.cause, Fraction(bound) if is_bounded else None)


def read_result(document):
    """What a document says that a worker handed in."""
    try:
        return gubnatris.read_result(document)
    except gubnatris.Error as failure:
        raise Wrong(f"its answer is no result: {failure}") from failure


class ServerWorker:
    """A seat at a server. `jobs`: where the names of jobs are written down while they are at the server, so that no instance is left there."""

    def __init__(self, url, jobs=None, seconds=30.0):
        self.name, self.server, self.jobs = url, gubnatris.Server(url, seconds=seconds), jobs

    def solve(self, osil, stop):
        try:
            job = self.server.submit(osil, node_limit=MOST_CASES, turn_limit=MOST_TURNS, named=self.begun)
            try:
                return self.wait(job, stop)
            finally:
                self.give_up(job)
        except gubnatris.Refused as failure:
            raise Wrong(f"{failure}") from failure
        except gubnatris.Error as failure:
            raise Failed(f"{failure}") from failure

    def begun(self, job):
        """Writes a job down, before its instance is sent."""
        if self.jobs:
            self.jobs.begun(self.name, job)

    def wait(self, job, stop):
        """The result of a job; it is asked for ever less often, and killed where the part isn't wanted any more."""
        begun, until = time.monotonic(), None
        while True:
            try:
                return self.server.result(job)
            except gubnatris.NotFinished as still:
                if still.state not in ("waiting", "running"):
                    if until is not None and still.state in ("killed", "unknown"):
                        return None
                    raise
            now = time.monotonic()
            if until is None and stop.is_set():
                if self.server.kill(job) != "running":
                    return None
                until = now + LONGEST_STOP
            if until is not None and now > until:
                raise Failed(f"{job} was killed, and still runs")
            pause = min(LONGEST_PAUSE, max(SHORTEST_PAUSE, (now - begun) / 8))
            time.sleep(pause) if until else stop.wait(pause)

    def give_up(self, job, seconds=0.0):
        """Has a job given up; one that runs is asked to stop, and waited for, so many seconds at most. Its state then, `running` or `unknown`, or
        none where the server doesn't answer."""
        until = time.monotonic() + seconds
        try:
            while (state := self.server.kill(job)) == "running" and time.monotonic() < until:
                time.sleep(PAUSE_OF_STOP)
            if state == "killed":  # it waited, and is killed by the first of two kills
                state = self.server.kill(job)
        except gubnatris.Error:
            return None
        if self.jobs and state != "running":
            self.jobs.ended(self.name, job)
        return state

    def mend(self):
        pass

    def close(self):
        pass


def free_port():
    with socket.create_server(("127.0.0.1", 0)) as it:
        return it.getsockname()[1]


class LocalWorker(ServerWorker):
    """A seat at a server of this tool's own, with one worker, at a free port of loopback. It is started anew where it ended."""

    def __init__(self):
        self.starts, self.process = 0, None
        self.start()
        super().__init__(f"http://127.0.0.1:{self.port}")

    def start(self):
        self.close()
        for _ in range(3):  # another program may take the port in between
            self.port, self.starts = free_port(), self.starts + 1
            words = [*WITH_PARENT, program(), "serve", "127.0.0.1", str(self.port), "--workers", "1", "--servers", "8"]
            self.process = subprocess.Popen(words, stdin=subprocess.DEVNULL, stdout=subprocess.PIPE, start_new_session=True)
            if select.select([self.process.stdout], [], [], LONGEST_START)[0] and self.process.stdout.readline() == b"listening\n":
                return
            self.close()
        raise Failed("the program doesn't serve")

    def mend(self):
        """Starts the server anew where it ended: it ends with the thread that started it, and that is its seat's. Where it doesn't start, the next
        part that it is given fails."""
        if self.process.poll() is not None and self.starts <= STARTS:
            try:
                self.start()
            except Failed:
                return
            self.server = gubnatris.Server(f"http://127.0.0.1:{self.port}", seconds=self.server.seconds)

    def close(self):
        if self.process:
            self.process.kill()
            self.process.wait()
            self.process.stdout.close()


class Jobs:
    """The jobs that are at servers, in a file, so that a tool that is started again gives up what an ended one left there."""

    def __init__(self, path):
        self.path = path

    def give_up_left(self):
        """Gives up what is left at servers; how many were given up. What still runs a while later stays written down, and so do the jobs of a
        server that doesn't answer, which isn't asked for the rest."""
        left = self.left()
        workers, silent = {url: ServerWorker(url, seconds=5) for url, _ in left}, set()

        def is_gone(it, seconds):
            url, job = it
            state = None if url in silent else workers[url].give_up(job, seconds)
            if state is None:
                silent.add(url)
            return state not in (None, "running")

        running = [it for it in left if not is_gone(it, 0.0)]  # all are asked to stop before the first of them is waited for
        stay = [it for it in running if not is_gone(it, LONGEST_STOP)]
        with open(self.path, "w", encoding="utf-8") as file:
            file.writelines(f"+ {url} {job}\n" for url, job in stay)
        return len(left) - len(stay)

    def left(self):
        """The servers and names of jobs that began and didn't end. A line that was cut short by a kill is passed over."""
        left = set()
        try:
            with open(self.path, encoding="utf-8") as file:
                for line in file:
                    pieces = line.split()
                    if len(pieces) == 3 and line.endswith("\n"):
                        (left.add if pieces[0] == "+" else left.discard)(tuple(pieces[1:]))
        except OSError:
            pass
        return sorted(left)

    def write(self, mark, url, job):
        with open(self.path, "a", encoding="utf-8") as file:  # one write of less than a page, which the system sets behind those of other processes
            file.write(f"{mark} {url} {job}\n")

    def begun(self, url, job):
        self.write("+", url, job)

    def ended(self, url, job):
        self.write("-", url, job)
