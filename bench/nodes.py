"""Times `solve` on long searches: seconds, peak memory, and how the time grows with the nodes.

By cases 2 x0 - 2 x1 = 1 has no whole solution within its bounds. Each document's tree is counted; that of 200,001 nodes would
be longer than a document may be, and its cause is `length`.
"""

import os
import re
import sys
import tempfile

import check

PROGRAM = os.path.abspath("crates/os_main/out/os_main")
OPTIONS = (
    '<osol><optimization><solverOptions><solverOption name="nodeLimit" value="1000000"/></solverOptions></optimization></osol>'
)


def solved(folder):
    """The processor seconds of a run, its greatest memory in bytes and what it wrote."""
    with tempfile.TemporaryFile() as out:
        words = [PROGRAM, "solve", f"{folder}/osil", "--options", f"{folder}/osol"]
        pid = os.posix_spawn(PROGRAM, words, os.environ, file_actions=[(os.POSIX_SPAWN_DUP2, out.fileno(), 1)])
        _, status, usage = os.wait4(pid, 0)
        out.seek(0)
        text = out.read().decode()
    if status != 0:
        sys.exit(f"{words} ended with {status}")
    return usage.ru_utime + usage.ru_stime, usage.ru_maxrss * 1024, text


def written(folder, name, text):
    with open(f"{folder}/{name}", "w", encoding="utf-8") as it:
        it.write(text)


def main():
    print("| nodes | seconds | times the one before | peak MB | answer |\n|---|---|---|---|---|")
    before = None
    with tempfile.TemporaryDirectory() as folder:
        written(folder, "osol", OPTIONS)
        for wanted, answer in ((2_001, "infeasible"), (20_001, "infeasible"), (200_001, "unsure, length")):
            nodes, instance, _, _ = check.tree(wanted)
            written(folder, "osil", instance)
            runs = [solved(folder) for _ in range(check.RUNS)]
            seconds, peak, text = min(run[0] for run in runs), max(run[1] for run in runs), runs[0][2]
            status, items = re.search(r'<status type="(\w+)"', text).group(1), re.findall(r"<item>([^<]*)<", text)
            found = status if len(items) == nodes else f"{status}, {items[0]}"
            if found != answer:
                sys.exit(f"{nodes} nodes: {found}")
            growth = f"{seconds / before:.1f}" if before else ""
            print(f"| {nodes:,} | {seconds:.3f} | {growth} | {peak / 1e6:.0f} | {found} |")
            before = seconds


main()
