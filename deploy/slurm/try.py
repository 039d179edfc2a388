"""Tries what solves by Slurm, on a cluster of a controller and two daemons that this starts on loopback and ends.

    python3 deploy/slurm/try.py [FILES]     where a number stands there, it measures so many small files instead
"""

import contextlib
import os
import random
import re
import shutil
import signal
import subprocess
import sys
import tempfile
import time

import programs
from cluster import Cluster, children
from part_workers import free_port

PROGRAM = os.environ["OS_PROGRAM"]
MANY = "deploy/slurm/solve_many"
EXAMPLES = ("diet", "knapsack", "transport", "infeasible_schedule", "capital_budget")
LIMIT = 900  # seconds that one command may take, on a machine with much other work
SHARES = 4  # the first share of a task is this part of an even one, as `solve_files` has it
SOME = 1_000  # of the files, whose solves are measured alone
LEAST_SHARE = 0.9  # of the processors' time through Slurm that the solves alone take
AIMED = 10_000  # files, from which on that is asked: fewer don't outweigh the start of the daemons


class Trial:
    """A cluster, a folder, and what was found right and wrong."""

    def __init__(self, cluster, folder):
        self.cluster, self.folder, self.passed, self.failed = cluster, folder, 0, 0
        self.environment = os.environ | (cluster.environment if cluster else {})

    def is_so(self, what, found):
        self.passed, self.failed = self.passed + bool(found), self.failed + (not found)
        print(f"{'ok' if found else 'FAILED'}: {what}", flush=True)

    def run(self, *words, **more):
        return subprocess.run(words, capture_output=True, text=True, env=self.environment, timeout=LIMIT, check=False, **more)

    def start(self, *words):
        return subprocess.Popen(words, stdout=subprocess.DEVNULL, stderr=subprocess.DEVNULL, env=self.environment)

    def files(self, name, count, most=5):
        """A folder of so many small instances, of which one is refused; half of them transports from at most so many places."""
        where = os.path.join(self.folder, name)
        os.mkdir(where)
        rng = random.Random(count)
        for k in range(count - 1):
            if k % 2:
                shutil.copy(f"examples/{EXAMPLES[k % len(EXAMPLES)]}.osil", f"{where}/{k:05}.osil")
            else:
                with open(f"{where}/{k:05}.osil", "w", encoding="utf-8") as file:
                    file.write(programs.osil(programs.transport(rng.randint(most // 2, most), rng.randint(3, 6) * most // 5)))
        with open(f"{where}/{count:05}.osil", "w", encoding="utf-8") as file:
            file.write("<osil/>")
        return where

    def check(self, osil, osrl):
        return self.run(PROGRAM, "check", osil, osrl).stdout.strip()


def result_of(where, name):
    with open(f"{where}/{name.removesuffix('.osil')}.osrl", encoding="utf-8") as file:
        return file.read()


def results(where):
    return {name: os.stat(f"{where}/{name}").st_mtime_ns for name in os.listdir(where) if name.endswith(".osrl")}


def table(where):
    with open(f"{where}/table.tsv", encoding="utf-8") as file:
        return [line.rstrip("\n").split("\t") for line in file][1:]


def many_files(trial, count):
    """All files of a folder have a result that is shown, and a line."""
    where = trial.files("many", count)
    ran = trial.run(MANY, where, "--check")
    lines = table(where)
    trial.is_so(f"{count} files: {ran.stdout.strip().partition(';')[0]}", ran.returncode == 0 and len(results(where)) == count)
    trial.is_so(f"{len(lines)} lines of a table, one of them refused", len(lines) == count and [row[0] for row in lines if row[1].startswith("refused")] == [f"{count:05}.osil"])
    told = [(row[1], trial.check(f"{where}/{row[0]}", f"{where}/{row[0].removesuffix('.osil')}.osrl")) for row in lines[:40]]
    trial.is_so("the check accepts what the lines say, of 40", len(told) == 40 and all(line == f"accepted {status}" for status, line in told))
    differ = [row[0] for row in [*lines[:20], lines[-1]] if trial.run(PROGRAM, "solve", f"{where}/{row[0]}").stdout != result_of(where, row[0])]
    trial.is_so(f"each result is what one solve writes, of 21: {len(differ)} aren't", not differ)
    again = trial.run(MANY, where)
    trial.is_so("a second run has nothing to do, and the table stays", again.returncode == 0 and table(where) == lines)
    trial.is_so("nothing else is left beside the files", not [name for name in os.listdir(where) if name.endswith((".begun", ".line"))])


def hold(where, tasks):
    """Puts a pipe in the place of one file of each task's first share, so that the task waits there; the pipes with the texts of their files, and how
    many results there are once all tasks wait."""
    names, held, begin, before = sorted(os.listdir(where)), [], 0, 0
    for _ in range(tasks):
        half = (len(names) - begin) // (SHARES * tasks) // 2
        path, before = f"{where}/{names[begin + half]}", before + half
        with open(path, encoding="utf-8") as file:
            held.append((path, file.read()))
        os.remove(path)
        os.mkfifo(path)
        begin += (len(names) - begin) // (SHARES * tasks)
    return held, before


def let_go(held):
    """Puts the files there again, and has who waits at a pipe read its text."""
    for path, text in held:
        os.rename(path, f"{path}.pipe")
        with open(path, "w", encoding="utf-8") as file:
            file.write(text)
        with contextlib.suppress(OSError):  # nobody waits where the task was killed
            with open(os.open(f"{path}.pipe", os.O_WRONLY | os.O_NONBLOCK), "w", encoding="utf-8") as pipe:
                pipe.write(text)
        os.remove(f"{path}.pipe")


def until(is_so):
    limit = time.monotonic() + LIMIT
    while not is_so() and time.monotonic() < limit:
        time.sleep(0.1)


def interrupted(trial, count):
    """A run that is killed, with its tasks: a second one goes on behind it."""
    where = trial.files("interrupted", count)
    held, number = hold(where, 2)
    process = trial.start(MANY, where, "--tasks", "2")
    until(lambda: len(results(where)) == number)
    process.kill()
    process.wait()
    trial.run("scancel", "--user=root")
    until(lambda: not trial.cluster.told("squeue", "-h"))
    let_go(held)
    before = results(where)
    ran = trial.run(MANY, where)
    after = results(where)
    trial.is_so(f"killed behind {len(before)} of {count}, a second run goes on: {ran.stdout.partition(';')[0]}", len(before) == number and ran.returncode == 0 and len(after) == count)
    trial.is_so("what had a result wasn't solved again, and each has a line", all(after[name] == then for name, then in before.items()) and len(table(where)) == count)


def lost_node(trial, count):
    """A node that is lost with its tasks and comes back: what they had taken is submitted again, within the same run."""
    where = trial.files("lost", count)
    held, number = hold(where, trial.cluster.count * trial.cluster.processors)
    process = trial.start(MANY, where)
    until(lambda: len(results(where)) == number)
    ended = trial.cluster.kill("n2")
    trial.cluster.start_daemon("n2")
    let_go(held)
    status = process.wait(timeout=LIMIT)
    trial.is_so(f"a node was lost behind {number} files, with {ended} processes: the run ended with {status}", ended > 4 and status == 0 and len(results(where)) == count)
    lists = [name for name in os.listdir(f"{where}/.solve_many") if name.count(".") == 1]
    trial.is_so(f"what it had taken was submitted again, and each file has a line: {len(lists)} lists", len(lists) == 2 and len(table(where)) == count)


def bad_words(trial):
    for words, says in (
        ((MANY, f"{trial.folder}/none"), "is no folder"),
        ((MANY, trial.folder, "--tasks", "0"), "--tasks is 1 to 1000"),
        (("tools/solve_apart", "examples/knapsack.osil", "--slurm", "--servers", "http://127.0.0.1:1"), "usage:"),
    ):
        ran = trial.run(*words)
        trial.is_so(f"{' '.join(words[1:3])}: {(ran.stderr.strip().splitlines() or [''])[-1][:80]}", ran.returncode == 2 and says in ran.stderr and "Traceback" not in ran.stderr)
    trial.environment["SLURM_CONF"] = f"{trial.folder}/none"
    ran = trial.run("tools/solve_apart", "examples/knapsack.osil", "--slurm", "--folder", f"{trial.folder}/none.parts")
    trial.environment["SLURM_CONF"] = trial.cluster.environment["SLURM_CONF"]
    trial.is_so(f"without a cluster: {ran.stderr.strip()[-90:]}", ran.returncode == 1 and "Traceback" not in ran.stderr and len(ran.stderr.splitlines()) == 1)


def instance(trial, name, program):
    path = f"{trial.folder}/{name}.osil"
    with open(path, "w", encoding="utf-8") as file:
        file.write(programs.osil(program))
    return path


def parts_of_one(trial):
    """One program by array tasks, one of which is taken away; the tool is killed once, and goes on."""
    path, output = instance(trial, "apart", programs.fixed_charge(9, 12)), f"{trial.folder}/apart.osrl"
    words = ("tools/solve_apart", path, "--slurm", "--share", "60", "--output", output)
    process, limit = trial.start(*words), time.monotonic() + LIMIT
    while not trial.cluster.told("squeue", "-h", "-t", "R") and time.monotonic() < limit:
        time.sleep(0.05)
    process.kill()
    process.wait()
    there = bool(trial.cluster.told("squeue", "-h"))
    process = trial.start(*words)
    while not (tasks := trial.cluster.told("squeue", "-h", "-r", "-t", "R", "-o", "%F_%K").split()) and process.poll() is None and time.monotonic() < limit:
        time.sleep(0.05)
    trial.run("scancel", *tasks[:1]) if tasks else None
    status = process.wait(timeout=LIMIT)
    line, value = trial.check(path, output), re.search(r'"os_cert.value"><item>([^<]*)<', open(output, encoding="utf-8").read())
    trial.is_so(f"one program, its tool killed once with its tasks ({there}), a task taken away ({len(tasks)}): {line} {value and value.group(1)}", status == 0 and line == "accepted optimal" and value.group(1) == "938")
    trial.is_so("no task is left, and no folder", not trial.cluster.told("squeue", "-h") and not os.path.exists(f"{path}.parts"))


def alone(path):
    """The processor's seconds of one solve, as a process of its own."""
    actions = [(os.POSIX_SPAWN_OPEN, 1, os.devnull, os.O_WRONLY, 0)]
    _, _, usage = os.wait4(os.posix_spawn(PROGRAM, [PROGRAM, "solve", path], os.environ, file_actions=actions), 0)
    return usage.ru_utime + usage.ru_stime


def tasks_spent(where):
    """The processors' seconds of all tasks, with all that they started."""
    spent = 0.0
    for name in os.listdir(f"{where}/.solve_many"):
        if name.endswith(".ended"):
            with open(f"{where}/.solve_many/{name}", encoding="ascii") as file:
                spent += float(file.read())
    return spent


def measured(trial, count):
    """The processors' seconds of so many solves alone, reckoned from 1,000 of them, and of all files through Slurm with what it, its daemons' start
    and its tasks take."""
    where = trial.files("measured", count)
    names = sorted(os.listdir(where))
    some = names[:: max(1, count // SOME) | 1]  # an odd step, since every second file is of a kind of its own
    own = sum(alone(f"{where}/{name}") for name in some) * count / len(some)
    before = Cluster.spent()
    with Cluster([free_port() for _ in range(3)]) as cluster:
        begun, processors = time.monotonic(), cluster.count * cluster.processors
        ran = subprocess.run([MANY, where], env=os.environ | cluster.environment, capture_output=True, text=True, check=False)
        clock = time.monotonic() - begun
    through = Cluster.spent() - before
    sessions, tasks = sum(float(row[3]) for row in table(where)), tasks_spent(where)
    print(f"{count} files: {own:.1f} s of processors for the solves alone, each a process; {through:.1f} s through Slurm: {sessions:.1f} s of solving, {tasks - sessions:.1f} s else of its tasks, {through - tasks:.1f} s of its daemons and commands")
    print(f"the solves alone take {own / through:.2f} of what all takes through Slurm, and {own / clock / processors:.2f} of {processors} processors for {clock:.1f} s of the clock")
    trial.is_so(ran.stdout.partition(";")[0], ran.returncode == 0 and len(results(where)) == count)
    if count >= AIMED:
        trial.is_so(f"at least {LEAST_SHARE} of the processors' time", own / through >= LEAST_SHARE)


def tried(folder):
    """All trials on one cluster; what was found."""
    with Cluster([free_port() for _ in range(3)]) as cluster:
        trial = Trial(cluster, folder)
        for try_one in (lambda: many_files(trial, 400), lambda: interrupted(trial, 400), lambda: bad_words(trial), lambda: parts_of_one(trial), lambda: lost_node(trial, 100)):
            try_one()
    return trial


def main():
    with tempfile.TemporaryDirectory(prefix="many-") as folder:
        os.chmod(folder, 0o755)
        if sys.argv[1:]:
            trial = Trial(None, folder)
            measured(trial, int(sys.argv[1]))
        else:
            trial = tried(folder)
    trial.is_so("no process is left", not children())
    print(f"{trial.passed} passed, {trial.failed} failed")
    return trial.failed > 0


if __name__ == "__main__":
    signal.signal(signal.SIGTERM, lambda *_: sys.exit(1))
    sys.exit(main())
