#!/usr/bin/env python3
# Solves instances by a server that runs, and has each certificate checked: `examples/` where no files are named. Its cells are marked
# as notebooks have them, so that Jupyter, VS Code or Spyder can step through it.
#
#     python3 clients/python/examples.py [--server URL] [--check PROGRAM] [--nodes N] [OSIL ..]
#
# It ends with 0 where each certificate is accepted, 1 where one isn't or an instance is refused, 2 for words it doesn't know, 3 where a
# file can't be read, 6 where nobody answers, and 7 where what came is no reply.

# %% What it is told
import argparse
import subprocess
import sys
import tempfile
import time
from pathlib import Path

import gubnatris

root = Path(__file__).resolve().parents[2]
words = argparse.ArgumentParser(description="Solves instances by a server, and has each certificate checked.")
words.add_argument("--server", metavar="URL", default="http://127.0.0.1:8080")
words.add_argument("--check", metavar="PROGRAM", default=str(root / "os"), help="the program whose `check` is asked")
words.add_argument("--nodes", metavar="N", type=int, help="how many cases a search may begin")
words.add_argument("instances", metavar="OSIL", nargs="*", type=Path)
asked = words.parse_args()
instances = asked.instances or sorted((root / "examples").glob("*.osil"))
try:
    server = gubnatris.Server(asked.server)
except ValueError as failure:
    words.error(str(failure))


# %% One certificate, checked from the two texts alone
def checked(instance, document):
    """What `os check` says of a result."""
    with tempfile.NamedTemporaryFile("w", suffix=".osrl", encoding="utf-8", newline="") as file:
        file.write(document)
        file.flush()
        try:
            told = subprocess.run([asked.check, "check", instance, file.name], capture_output=True, text=True, check=False)
        except OSError as failure:
            sys.exit(f"{asked.check} can't be run: {failure.strerror}")
    return told.stdout.strip() or f"ended with {told.returncode}"


# %% One instance, solved
def row(instance):
    """The cells of one row, and the status that it stands for."""
    begun = time.monotonic()
    try:
        result = server.solve(instance, node_limit=asked.nodes)
    except gubnatris.Refused as refused:
        return [instance.stem, "refused", refused.text, f"{time.monotonic() - begun:.3f}", ""], 1
    seconds = time.monotonic() - begun
    told = checked(instance, result.document)
    objective = "" if result.objective is None else str(result.objective)
    return [instance.stem, result.status, objective, f"{seconds:.3f}", told], 0 if told.startswith("accepted ") else 1


# %% The table
statuses = {gubnatris.NotSent: 3, gubnatris.NotReached: 6, gubnatris.TimedOut: 6, gubnatris.NoReply: 7}
widths = [max(len(it.stem) for it in instances), 10, 12, 7]
print("  ".join(cell.ljust(width) for cell, width in zip(["instance", "status", "objective", "seconds"], widths)) + "  certificate")
worst = 0
for instance in instances:
    try:
        cells, status = row(instance)
    except gubnatris.Error as failure:
        print(f"{instance.stem}: {failure}", file=sys.stderr)
        sys.exit(statuses.get(type(failure), 1))
    print("  ".join(cell.ljust(width) for cell, width in zip(cells, widths)) + "  " + cells[-1])
    worst = max(worst, status)
sys.exit(worst)
