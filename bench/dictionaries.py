"""A program for crates/bench_dictionaries: its rows, its costs, exchanges whose numbers all fit, and how often to turn them.

    python3 bench/dictionaries.py transport|random|chains ROUNDS
"""
import random
import sys
from fractions import Fraction

MOST = 2**127 - 1


def transport(rng):
    """20 supplies by 40 demands: each variable in one row of each kind."""
    rows = [{} for _ in range(60)]
    for i in range(20):
        for j in range(40):
            rows[i][i * 40 + j] = 1
            rows[20 + j][i * 40 + j] = 1
    return rows, [rng.randint(1, 99) for _ in range(800)], 200


def sparse(rng):
    """100 rows over 100 variables, 5 small entries in each."""
    signed = [k for k in range(-9, 10) if k != 0]
    rows = [{j: rng.choice(signed) for j in rng.sample(range(100), 5)} for _ in range(100)]
    return rows, [rng.randint(1, 99) for _ in range(100)], 60


def chains(rng):
    """1,000 variables, four to a row."""
    rows = [{4 * i + k: 2 for k in range(4)} for i in range(250)]
    return rows, [j % 4 + 1 for j in range(1000)], 500


def pivoted(equations, b, e):
    """The equations with b and e exchanged, or None where a number doesn't fit."""
    p = equations[b][e]
    own = {c: -v / p for c, v in equations[b].items() if c != e}
    own[b] = 1 / p
    made = {e: own}
    for a, row in equations.items():
        if a == b:
            continue
        if e in row:
            new = {c: v for c, v in row.items() if c != e}
            for c, v in own.items():
                value = new.get(c, 0) + row[e] * v
                new.pop(c, None)
                if value != 0:
                    new[c] = value
            row = new
        made[a] = row
    fits = all(abs(v.numerator) <= MOST and v.denominator <= MOST for r in made.values() for v in r.values())
    return made if fits else None


def exchanges(rows, costs, count, rng):
    """Each with the shortest row of those that have the column, so that rows stay short."""
    n = len(costs)
    goal = n + len(rows)
    equations = {n + i: {c: Fraction(v) for c, v in row.items()} for i, row in enumerate(rows)}
    equations[goal] = {c: Fraction(v) for c, v in enumerate(costs)}
    nonbasic = set(range(n))
    chosen = []
    while len(chosen) < count:
        e = rng.choice(sorted(nonbasic))
        leaving = [b for b in equations if b != goal and e in equations[b]]
        if not leaving:
            continue
        b = min(leaving, key=lambda a: (len(equations[a]), rng.random()))
        made = pivoted(equations, b, e)
        if made is None:
            break
        equations = made
        nonbasic.remove(e)
        nonbasic.add(b)
        chosen.append((b, e))
    return chosen


def main():
    kind, rounds = sys.argv[1:]
    rng = random.Random(7)
    rows, costs, count = {"transport": transport, "random": sparse, "chains": chains}[kind](rng)
    chosen = exchanges(rows, costs, count, rng)
    print(";".join(" ".join(f"{c}:{v}" for c, v in sorted(row.items())) for row in rows))
    print(" ".join(map(str, costs)))
    print(";".join(f"{b} {e}" for b, e in chosen))
    print(rounds)


main()
