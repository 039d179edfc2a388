"""Compares what two builds of the program answer to `solve`, byte for byte, on linear and integer programs made at random.

    python3 bench/same.py OLD NEW [COUNT [SEED]]

OLD and NEW are builds of `os_main`. The numbers of most programs are small; those of the others lie at 31 and 32, 62 to 64 and 120 to 127
bits, or have decimals, so that products and sums of their runs fit just so or not at all. Stops at the first program that the two answer
otherwise, and writes it to `same.osil`; else says how many had each answer.
"""

import collections
import random
import re
import subprocess
import sys
import tempfile

import programs

CORNERS = [2**k + d for k in (31, 32, 62, 63, 64, 120, 126) for d in (-1, 0, 1)] + [2**127 - 1, 2**127 - 2]
STATUS = re.compile(r'<solution><status type="(\w+)"')
CAUSE = re.compile(r'"os_cert\.cause"><item>([^<]*)<')


def small(rng):
    return rng.choice([-9, -3, -2, -1, -1, 1, 1, 2, 3, 7])


def corner(rng):
    return rng.choice([-1, 1]) * rng.choice(CORNERS)


def decimal(rng):
    return f"{rng.choice(['', '-'])}{rng.randint(0, 99)}.{rng.randint(1, 999999):06}"


def mixed(rng):
    return rng.choice([small, small, small, corner])(rng)


def ends(rng, number):
    """A lower and an upper end, of which each may be none."""
    low, high = sorted([int(number(rng)), int(number(rng))])
    return rng.choice([(low, high), (low, None), (None, high), (low, low), (low, high)])


def made(rng):
    """A program, and whether its numbers are small."""
    number = rng.choice([small, small, mixed, mixed, corner, decimal])
    end = small if number is decimal else rng.choice([small, number])
    width, height = rng.randint(1, 8), rng.randint(0, 8)
    variables = [rng.choice([(0, None), (0, 9), ends(rng, end)]) + (rng.random() < 0.3,) for _ in range(width)]
    rows = []
    for _ in range(height):
        columns = rng.sample(range(width), rng.randint(1, min(width, 5)))
        rows.append(ends(rng, end) + ({column: number(rng) for column in columns},))
    costs = [rng.choice([0, number(rng)]) for _ in range(width)]
    return programs.Program("random", rng.random() < 0.5, variables, rows, costs)


def answer(program, file):
    run = subprocess.run([program, "solve", file], stdin=subprocess.DEVNULL, capture_output=True, check=False, timeout=60)
    return run.returncode, run.stdout


def kind(status, text):
    """The status that a result tells, with the words of its cause."""
    found = STATUS.search(text.decode())
    cause = CAUSE.search(text.decode())
    words = [word for word in cause.group(1).split() if word.isalpha()] if cause else []
    return " ".join([found.group(1) if found else f"exit {status}"] + words)


def main():
    old, new = sys.argv[1:3]
    count = int(sys.argv[3]) if len(sys.argv) > 3 else 10_000
    rng = random.Random(int(sys.argv[4]) if len(sys.argv) > 4 else 1)
    answers = collections.Counter()
    with tempfile.NamedTemporaryFile("w", suffix=".osil") as it:
        for _ in range(count):
            text = programs.osil(made(rng))
            it.seek(0)
            it.truncate()
            it.write(text)
            it.flush()
            first = answer(old, it.name)
            if first != answer(new, it.name):
                with open("same.osil", "w", encoding="utf-8") as kept:
                    kept.write(text)
                sys.exit("another answer: see same.osil")
            answers[kind(*first)] += 1
    for name, times in answers.most_common():
        print(f"{times:8} {name}")


if __name__ == "__main__":
    main()
