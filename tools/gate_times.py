"""Runs the gate from nothing on a copy of the last commit, and prints each crate's processor seconds."""

import collections
import ctypes
import os
import re
import subprocess
import sys
import tempfile
import time

TICKS = os.sysconf("SC_CLK_TCK")
BECOME_PARENT_OF_ORPHANS = 36  # PR_SET_CHILD_SUBREAPER: so that every process of the gate stays below this one
KINDS = ("proof", "tests", "edits")
KEPT = "--kept"


def processes():
    """Each process: its parent, the ticks that it has run for itself, and when it began."""
    found = {}
    for name in os.listdir("/proc"):
        if name.isdigit():
            try:
                with open(f"/proc/{name}/stat", encoding="utf-8", errors="replace") as it:
                    fields = it.read().rpartition(")")[2].split()
                found[int(name)] = (int(fields[1]), int(fields[11]) + int(fields[12]), int(fields[19]))
            except OSError:
                pass  # it has ended
    return found


def is_below(pid, top, found):
    while pid in found:
        pid = found[pid][0]
        if pid == top:
            return True
    return False


def task_of(pid):
    """The crate and the kind of work that a process does, as far as its words and its folder tell."""
    try:
        with open(f"/proc/{pid}/cmdline", "rb") as it:
            words = it.read().decode(errors="replace").split("\0")
        folder = os.readlink(f"/proc/{pid}/cwd")
    except OSError:
        return None
    if "--crate-name" in words:
        crate = words[words.index("--crate-name") + 1]
        if "/rt-edit" in folder or any("/rt-edits-" in word for word in words):
            return crate, "edits"
        return crate, "tests" if "--test" in words else "proof"
    ran = re.search(r"/crates/([a-z0-9_]+)/out/", words[0])
    return (ran.group(1), "tests") if ran else None


def run(names, folder):
    """Runs the gate there; its status, and the ticks of each task."""
    words = [name for name in names if name != KEPT]
    told = subprocess.run(["rt", "help"], stdout=subprocess.PIPE, stderr=subprocess.STDOUT, text=True, check=False).stdout
    # Only a toolchain that keeps what a gate passed has to be asked for all anew.
    anew = ["--anew"] if KEPT not in names and "--anew" in told else []
    gate = subprocess.Popen(["rt", "ci", *anew, *words], cwd=folder, stdout=sys.stderr)
    ticks, tasks = {}, {}
    while gate.poll() is None:
        found = processes()
        for pid, (_, ran, begun) in found.items():
            if is_below(pid, os.getpid(), found):
                tasks[pid, begun] = task_of(pid) or tasks.get((pid, begun)) or ("(rt)", "proof")
                ticks[pid, begun] = ran
        time.sleep(0.5)
    sums = collections.Counter()
    for one, ran in ticks.items():
        sums[tasks[one]] += ran
    return gate.returncode, sums


def table(sums):
    crates = sorted({crate for crate, _ in sums}, key=lambda crate: -sum(sums[crate, kind] for kind in KINDS))
    rows = [(crate, *(round(sums[crate, kind] / TICKS) for kind in KINDS)) for crate in crates]
    print("| crate | proof | tests | edits | all |\n|---|---|---|---|---|")
    for crate, *seconds in rows:
        print(f"| {crate} | {' | '.join(map(str, seconds))} | {sum(seconds)} |")
    whole = [sum(row[k] for row in rows) for k in (1, 2, 3)]
    print(f"| all | {' | '.join(map(str, whole))} | {sum(whole)} |\n\nprocessor minutes: {sum(whole) / 60:.0f}")


def main():
    ctypes.CDLL(None).prctl(BECOME_PARENT_OF_ORPHANS, 1, 0, 0, 0)
    with tempfile.TemporaryDirectory(prefix="gate-times-") as room:
        copy = f"{room}/copy"
        subprocess.run(["git", "clone", "-q", ".", copy], check=True)
        status, sums = run(sys.argv[1:], copy)
    table(sums)
    return status


sys.exit(main())
