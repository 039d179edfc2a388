"""Parts that a cluster of Slurm solves: each is a task of an array job, which divides it further by a `solve_apart` of its own.

The folder is one that all nodes reach, at the same place; so are the tools, and the program that OS_PROGRAM names.
"""

import os
import shutil
import subprocess
import threading
import time

from part_workers import Failed, program, read_result

HERE = os.path.dirname(os.path.abspath(__file__))
SCRIPT = os.path.join(HERE, "..", "deploy", "slurm", "part.sbatch")
TOOL = os.path.join(HERE, "solve_apart")
PAUSE = 0.25  # seconds between two looks for results
LOOKS = 8  # after so many looks Slurm is asked which tasks it still has
MISSED = 2  # a task that so many of its answers haven't, and that left no result, is lost
LONGEST_SILENCE = 60  # seconds for which Slurm's controller may not answer
LONGEST_COMMAND = 60  # seconds that a command of Slurm's may take


def told(*words):
    """What a command of Slurm's writes, or none where it fails; and why it does."""
    try:
        ran = subprocess.run(words, stdin=subprocess.DEVNULL, capture_output=True, text=True, timeout=LONGEST_COMMAND, check=False)
    except subprocess.TimeoutExpired:
        return None, f"{words[0]} takes longer than {LONGEST_COMMAND} seconds"
    except OSError as failure:
        return None, f"{words[0]}: {failure.strerror.lower()}"
    why = (ran.stderr.strip().splitlines() or [f"{words[0]} ended with {ran.returncode}"])[-1]
    return (ran.stdout if ran.returncode == 0 else None), why


def processors():
    """How many processors the cluster has."""
    text, why = told("sinfo", "-h", "-o", "%C")
    if text is None:
        raise Failed(why)
    return sum(int(line.split("/")[-1]) for line in text.split() if line.split("/")[-1].isdigit())


class Wanted:
    """A part that Slurm has: its number, the job whose task it is, and what came of it."""

    def __init__(self, number):
        self.number, self.job, self.missed, self.failure, self.is_over = number, None, 0, None, threading.Event()


class SlurmQueue:
    """Parts that wait for Slurm, or are with it. Those that wait at one look are submitted as one array."""

    def __init__(self, folder, seconds):
        self.folder, self.seconds = os.path.abspath(os.path.join(folder, "slurm")), seconds
        self.cancel_left()
        os.makedirs(self.folder)
        os.environ["OS_PROGRAM"] = program()
        self.lock, self.waiting, self.with_slurm, self.numbers, self.is_closed = threading.Lock(), [], {}, 0, False
        self.answered = time.monotonic()
        threading.Thread(target=self.work, daemon=True).start()

    def cancel_left(self):
        """Cancels what a run before, which was killed, left with Slurm."""
        try:
            with open(os.path.join(self.folder, "jobs"), encoding="ascii") as file:
                jobs = file.read().split()
        except OSError:
            jobs = []
        if jobs:
            told("scancel", *jobs)
        shutil.rmtree(self.folder, ignore_errors=True)

    def path(self, number, kind):
        return os.path.join(self.folder, f"{number}.{kind}")

    def add(self, osil):
        with self.lock:
            wanted = Wanted(self.numbers)
            self.numbers += 1
            with open(self.path(wanted.number, "osil"), "w", encoding="utf-8") as file:
                file.write(osil)
            self.waiting.append(wanted)
        return wanted

    def work(self):
        looks = 0
        while not self.is_closed:
            time.sleep(PAUSE)
            looks += 1
            with self.lock:
                try:
                    self.look(looks % LOOKS == 0)
                except OSError as failure:  # nobody is left to wait for ever
                    for wanted in [*self.waiting, *self.with_slurm.values()]:
                        self.end(wanted, f"{failure.filename or self.folder}: {failure.strerror}")
                    self.waiting = []

    def look(self, is_lost_looked_for):
        self.submit()
        for wanted in list(self.with_slurm.values()):
            if os.path.exists(self.path(wanted.number, "osrl")):
                self.end(wanted)
        if is_lost_looked_for and self.with_slurm:
            self.find_lost()

    def submit(self):
        """Submits what waits as one array, whose tasks have the parts' numbers."""
        if not self.waiting:
            return
        numbers = ",".join(str(it.number) for it in self.waiting)
        text, why = told("sbatch", "--parsable", f"--array={numbers}", SCRIPT, TOOL, self.folder, str(self.seconds))
        if text is None:
            for wanted in self.waiting:
                wanted.failure = why
                wanted.is_over.set()
        else:
            job = text.strip().partition(";")[0]
            with open(os.path.join(self.folder, "jobs"), "a", encoding="ascii") as file:
                file.write(job + "\n")
            for wanted in self.waiting:
                wanted.job = job
                self.with_slurm[wanted.number] = wanted
        self.waiting = []

    def find_lost(self):
        """Ends those that Slurm hasn't any more and that left no result."""
        jobs = ",".join({it.job for it in self.with_slurm.values()})
        text, why = told("squeue", "-h", "-r", "-o", "%K", "-j", jobs)
        if text is None and "Invalid job id" not in why:
            if time.monotonic() - self.answered > LONGEST_SILENCE:
                for wanted in list(self.with_slurm.values()):
                    self.end(wanted, f"Slurm's controller doesn't answer: {why}")
            return
        self.answered = time.monotonic()
        there = set((text or "").split())
        for wanted in list(self.with_slurm.values()):
            wanted.missed = 0 if str(wanted.number) in there else wanted.missed + 1
            if wanted.missed >= MISSED and not os.path.exists(self.path(wanted.number, "osrl")):
                self.end(wanted, "Slurm lost the part")

    def end(self, wanted, failure=None):
        self.with_slurm.pop(wanted.number, None)
        wanted.failure = failure
        wanted.is_over.set()

    def stop(self, wanted, how):
        told("scancel", *how, f"{wanted.job}_{wanted.number}")

    def remove(self, wanted):
        for kind in ("osil", "osrl"):
            if os.path.exists(self.path(wanted.number, kind)):
                os.remove(self.path(wanted.number, kind))
        shutil.rmtree(self.path(wanted.number, "parts"), ignore_errors=True)

    def close(self):
        """Cancels what is still with Slurm."""
        with self.lock:
            self.is_closed = True
            jobs = {it.job for it in self.with_slurm.values()}
        if jobs:
            told("scancel", *jobs)
        shutil.rmtree(self.folder, ignore_errors=True)


class SlurmWorker:
    """A seat of those that Slurm has at once. Where its part isn't wanted any more, its task is asked to end with what it has."""

    name = "Slurm"

    def __init__(self, tasks):
        self.tasks = tasks

    def solve(self, osil, stop):
        wanted, is_stopped = self.tasks.add(osil), False
        try:
            while not wanted.is_over.wait(0.1):
                if stop.is_set() and wanted.job and not is_stopped:
                    is_stopped = True
                    self.tasks.stop(wanted, ["--signal=TERM", "--batch"])
                    if not wanted.is_over.wait(3):
                        self.tasks.stop(wanted, [])
            if wanted.failure and is_stopped:
                return None
            if wanted.failure:
                raise Failed(wanted.failure)
            with open(self.tasks.path(wanted.number, "osrl"), encoding="utf-8") as file:
                return read_result(file.read())
        except OSError as failure:
            raise Failed(f"the part's result can't be read: {failure}") from failure
        finally:
            self.tasks.remove(wanted)

    def mend(self):
        pass

    def close(self):
        self.tasks.close()
