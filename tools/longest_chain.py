"""Prints the longest chain of crates of which each stands on the one before, which a build waits for however many processors there are: by
crates.txt, and by the seconds of each proof in docs/WORKING.md's table.

    python3 tools/longest_chain.py [CRATE]

CRATE is the one at the end, `os_main` where none is named. A crate that isn't in the table has no seconds yet, and is marked so.
"""

import pathlib
import re
import sys

ROOT = pathlib.Path(__file__).resolve().parent.parent


def crates_below():
    """Each crate with those that it stands on, the lower ones first."""
    below = {}
    for line in (ROOT / "crates.txt").read_text(encoding="utf-8").splitlines():
        if re.match("[a-z]", line):
            name, _, names = line.partition(":")
            below[name.split()[0]] = names.split()
    return below


def seconds_of_proofs():
    rows = re.findall(r"^\| ([a-z0-9_]+) \| (\d+) \|", (ROOT / "docs/WORKING.md").read_text(encoding="utf-8"), re.M)
    return {name: int(seconds) for name, seconds in rows}


def longest_chain(below, seconds, last):
    """The crates up to this one, of whose proofs the sum is greatest."""
    chains = {}
    for name, names in below.items():
        before = max((chains[each] for each in names if each in chains), default=(0, []))
        chains[name] = (before[0] + seconds.get(name, 0), [*before[1], name])
    return chains[last][1]


def main():
    last = sys.argv[1] if len(sys.argv) > 1 else "os_main"
    below, seconds, total = crates_below(), seconds_of_proofs(), 0
    if last not in below:
        print(f"longest_chain: crates.txt has no crate {last}", file=sys.stderr)
        return 2
    print("| crate | proof | with those before it |\n|---|---|---|")
    for name in longest_chain(below, seconds, last):
        total += seconds.get(name, 0)
        print(f"| {name} | {seconds.get(name, 'not timed')} | {total} |")
    return 0


if __name__ == "__main__":
    sys.exit(main())
