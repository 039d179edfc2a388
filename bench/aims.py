"""Figures that have an aim and need a quiet machine, each beside its aim, in one go of ten minutes at most.

    python3 bench/aims.py

The seconds until a standby answers, two servers behind the proxy beside one, small files through Slurm, a first answer before the proofs, and one
program by its parts on four processors and on one. The kinds of programs grow until one takes a while with one worker. Its times are compared by
the clock, and as they are reckoned where each worker has a processor of its own (`bench/apart.py`): a machine that is itself one of several may
be given less than it has, which the processors' own count of stolen time tells.
"""

import os
import re
import subprocess
import sys
import tempfile
import time
from typing import NamedTuple

import apart
import programs

FILES = 10_000
TAKEOVERS = 3
MOST_SECONDS, LEAST_SECONDS = 60, 25  # that one worker takes for a program: past the first it is ended, from the second on no larger one is tried
MOST_ENDED = 2  # programs of a kind that are ended so before the kind's largest is taken that wasn't
WORKERS = 4
MOST_PRESSURE = 10.0  # percent of the last minute in which something waited for a processor, above which the machine has other work
KINDS = (
    (programs.fixed_charge, ((16, 24), (18, 25), (19, 26), (20, 28))),
    (programs.general_assignment, ((6, 40), (8, 40))),
    (programs.job_shop, ((5, 8), (5, 10), (5, 12), (7, 3), (6, 4))),
)
TAKE_OVER = f"import takeover; takeover.take_over({TAKEOVERS})"


def row(what, aim, found, more=""):
    is_met = "" if found is None else "yes" if (found <= aim if what.startswith("seconds") else found >= aim) else "no"
    print(f"| {what} | {aim} | {'not found' if found is None else f'{found:.2f}'} | {is_met} | {more} |", flush=True)


def ticks():
    """What the processors have counted: the time that was stolen, and all time."""
    with open("/proc/stat", encoding="ascii") as file:
        found = [int(word) for word in file.readline().split()[1:9]]
    return found[7], sum(found)


def stolen_since(before):
    now = ticks()
    return (now[0] - before[0]) / max(now[1] - before[1], 1)


class Timed(NamedTuple):
    """A run of `solve_apart`, and how much of the processors' time was stolen meanwhile."""

    run: apart.Run
    stolen: float

    def __str__(self):
        it = self.run
        return f"{it.clock:.1f} s of the clock ({it.processors:.1f} of processors, {it.own:.1f} of them the tool's own, seats busy {it.busy:.2f}, {100 * self.stolen:.0f} % stolen)"


def timed(program, workers):
    """A run of `solve_apart`."""
    with tempfile.TemporaryDirectory() as folder:
        path, before = os.path.join(folder, "it.osil"), ticks()
        with open(path, "w", encoding="utf-8") as file:
            file.write(programs.osil(program))
        return Timed(apart.apart(path, folder, workers, MOST_SECONDS), stolen_since(before))


def largest(make, sizes):
    """The program of the kind that takes long by one worker, or the longest of those that end in time, with its run; none where none ends."""
    found, ended = None, 0
    for size in sizes:
        program = make(*size)
        one = timed(program, 1)
        ended += one.run.line != "accepted optimal"
        if one.run.line == "accepted optimal" and (found is None or one.run.clock > found[1].run.clock):
            found = program, one
        if ended == MOST_ENDED or found and found[1].run.clock >= LEAST_SECONDS:
            break
    return found


def of_kind(make, sizes):
    """A program of the kind by one worker and by four."""
    found = largest(make, sizes)
    if found is None:
        row(f"{make.__name__}: one worker ends none of {sizes}", 3.0, None)
        return
    program, one = found
    many = timed(program, WORKERS)
    is_same = many.run[1:3] == one.run[1:3]
    times, reckoned = one.run.clock / many.run.clock, one.run.reckoned() / many.run.reckoned()
    row(f"{program.name} by {WORKERS} workers, times one, by the clock", 3.0, times if is_same else None, f"{one} and {many}")
    row("the same, reckoned", 3.0, reckoned if is_same else None, f"{one.run.reckoned():.1f} s and {many.run.reckoned():.1f} s")


def said(*words):
    """What a command writes."""
    ran = subprocess.run(words, capture_output=True, text=True, check=False)
    if ran.returncode:
        print((ran.stderr.strip().splitlines() or [f"{words} ended with {ran.returncode}"])[-1], file=sys.stderr)
    return ran.stdout


def servers():
    text = said("bash", "bench/machines.sh")
    jobs = {int(count): float(found) for count, found in re.findall(r"^\| (\d) behind the proxy \| ([0-9.]+) \|", text, re.M)}
    row("jobs a second of 2 servers behind the proxy, times 1", 1.8, jobs[2] / jobs[1] if {1, 2} <= jobs.keys() else None, ", ".join(f"{count}: {found}" for count, found in jobs.items()))


def files():
    text = said("bash", "deploy/slurm/try.sh", str(FILES))
    found = re.search(r"take ([0-9.]+) of what all takes", text)
    row(f"{FILES} small files: solves alone, of what all takes through Slurm", 0.9, found and float(found[1]), "; ".join(text.strip().splitlines()[:2]))


def standby():
    text = said(sys.executable, "-c", TAKE_OVER)
    found = re.search(r"answered again ([0-9., ]+) s behind", text)
    row("seconds until calls are answered by a standby", 10.0, found and max(map(float, found[1].split(", "))), found[1] if found else "")


def first_answer():
    begun = time.monotonic()
    text = said("./os", "try", "solve", "examples/knapsack.osil")
    row("seconds of ./os try solve examples/knapsack.osil", 120.0, time.monotonic() - begun if 'type="optimal"' in text else None)


def main():
    begun, before = time.monotonic(), ticks()
    with open("/proc/pressure/cpu", encoding="ascii") as file:
        pressure = float(re.search(r"some .*avg60=([0-9.]+)", file.read()).group(1))
    print(f"{os.cpu_count()} processors; in {pressure:.0f} % of the last minute something waited for one" + (": THE MACHINE HAS OTHER WORK, so nothing here counts" if pressure > MOST_PRESSURE else ""))
    print("\n| what | aim | found | met | of |\n|---|---|---|---|---|", flush=True)
    standby()
    servers()
    files()
    first_answer()
    for make, sizes in KINDS:
        of_kind(make, sizes)
    print(f"\n{time.monotonic() - begun:.0f} s, in which {100 * stolen_since(before):.0f} % of the processors' time was stolen")


if __name__ == "__main__":
    main()
