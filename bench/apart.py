"""One program on several processors: `solve_apart` with one worker and with four, beside one `solve`.

A row has the seconds of processors that a run took with all its processes, those of the tool's own, which divides and joins, and how much of
their time the seats had a part. On a machine
that other work shares the time on a clock says little, so what it would be is reckoned: the processors' seconds over the seats, over how
much of their time these had a part. Both answers have to be the same, and the program's check has to accept them.

    python3 bench/apart.py [SECONDS]     each run ends after so many seconds of the clock, 300 where none are said
"""

import os
import re
import resource
import subprocess
import sys
import tempfile
import time
from typing import NamedTuple

import programs

PROGRAM = os.environ["OS_PROGRAM"]
LIMITS = "".join(f'<solverOption name="{name}" value="{limit}"/>' for name, limit in (("nodeLimit", 10**6), ("pivotLimit", 10**8)))
OPTIONS = f"<osol><optimization><solverOptions>{LIMITS}</solverOptions></optimization></osol>"
MOST_SECONDS = 6  # of a processor, for one `solve`
WORKERS = (1, 4)


def spent(words, seconds=None):
    """What a command writes on its standard output and standard error, and the seconds of processors and of the clock."""
    limit = None if seconds is None else lambda: resource.setrlimit(resource.RLIMIT_CPU, (seconds, seconds))
    begun = time.monotonic()
    with subprocess.Popen(words, stdout=subprocess.PIPE, stderr=subprocess.PIPE, text=True, preexec_fn=limit) as process:
        before = resource.getrusage(resource.RUSAGE_CHILDREN)
        out, err = process.communicate()
    after = resource.getrusage(resource.RUSAGE_CHILDREN)
    processors = after.ru_utime + after.ru_stime - before.ru_utime - before.ru_stime
    return out, err, processors, time.monotonic() - begun


def alone(path, options):
    """One `solve`: its status, or that it took too long, and its seconds."""
    out, _, processors, _ = spent([PROGRAM, "solve", path, "--options", options], MOST_SECONDS)
    found = re.search(r'<solution><status type="(\w+)"', out)
    cause = re.search(r'"os_cert.cause"><item>(\w+)', out)
    if not found:
        return f"> {MOST_SECONDS}"
    return f"{processors:.1f}" + (f" ({found.group(1)}, {cause.group(1)})" if cause else "")


class Run(NamedTuple):
    """A run of `solve_apart`: what the check says of it and its value, the seconds of processors, of the tool's own among them, and of the clock, how
    busy the seats were, the parts that were bounded, and the bytes."""

    workers: int
    line: str
    value: str
    processors: float
    own: float
    clock: float
    busy: float
    parts: int
    size: int

    def reckoned(self):
        """Its seconds where each worker has a processor of its own."""
        return self.processors / self.workers / self.busy


def apart(path, folder, workers, seconds):
    output = os.path.join(folder, "result.osrl")
    words = ["tools/solve_apart", path, "--workers", str(workers), "--seconds", str(seconds), "--quiet", "--output", output, "--folder", f"{folder}/{workers}"]
    _, err, processors, clock = spent(words)
    line = subprocess.run([PROGRAM, "check", path, output], capture_output=True, text=True, check=False).stdout.strip()
    parts, busy, own = re.search(r"(\d+) bounded, .* busy ([0-9.]+), own work ([0-9.]+) s", err).groups()
    with open(output, encoding="utf-8") as file:
        value = re.search(r'"os_cert.value"><item>([^<]*)<', file.read())
    return Run(workers, line, value.group(1) if value else "", processors, float(own), clock, float(busy), int(parts), os.path.getsize(output))


def rows(program, seconds):
    with tempfile.TemporaryDirectory() as folder:
        path, options = os.path.join(folder, "it.osil"), os.path.join(folder, "it.osol")
        for name, text in ((path, programs.osil(program)), (options, OPTIONS)):
            with open(name, "w", encoding="utf-8") as file:
                file.write(text)
        single = alone(path, options)
        runs = [apart(path, folder, workers, seconds) for workers in WORKERS]
    if runs[0][1:3] != runs[1][1:3]:
        print(f"{program.name}: {runs[0][1:3]} and {runs[1][1:3]}", file=sys.stderr)
    for it in runs:
        times = runs[0].reckoned() / it.reckoned()
        numbers = f"{it.processors:.1f} | {it.own:.1f} | {it.clock:.1f} | {it.busy:.2f} | {it.reckoned():.1f} | {times:.2f} | {it.parts} | {it.size}"
        print(f"| {program.name} | {it.workers} | {single} | {numbers} | {it.value} {it.line.removeprefix('accepted ')} |", flush=True)


def main():
    seconds = int(sys.argv[1]) if sys.argv[1:] else 300
    print("| program | workers | one solve s | processors s | the tool's own | clock s | seats busy | reckoned s | times one | parts bounded | result bytes | result |")
    print("|---|---|---|---|---|---|---|---|---|---|---|---|", flush=True)
    for program in (
        programs.fixed_charge(10, 15), programs.general_assignment(5, 25), programs.job_shop(5, 4), programs.job_shop(5, 5), programs.general_assignment(5, 35),
        programs.fixed_charge(14, 20), programs.job_shop(6, 3), programs.general_assignment(6, 24),
    ):
        rows(program, seconds)


if __name__ == "__main__":
    main()
