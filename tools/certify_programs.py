"""Small programs made at random, of the kinds on which solvers go wrong, each with its own number: the same number gives the same program."""

import os
import random
import sys

sys.path.insert(0, os.path.join(os.path.dirname(os.path.abspath(__file__)), "..", "bench"))

from programs import Program


def entries_of(rng, count, most=5):
    """A row's entries: few, small, none of them 0."""
    used = rng.sample(range(count), rng.randint(1, min(4, count)))
    return {j: rng.choice([k for k in range(-most, most + 1) if k]) for j in used}


def activity(entries, point):
    return sum(factor * point[j] for j, factor in entries.items())


def held_by(rng, entries, point, slack):
    """A row's ends that a point keeps, with this much slack at most."""
    value, kind = activity(entries, point), rng.randrange(4)
    low = value - rng.randint(0, slack) if kind != 1 else None
    high = value + rng.randint(0, slack) if kind != 0 else None
    return (value, value, entries) if kind == 2 and slack else (low, high, entries)


def box(rng, value, whole):
    low = value - rng.randint(0, 4) if rng.random() < 0.8 else None
    high = value + rng.randint(0, 4) if rng.random() < 0.6 else None
    return low, high, whole


def costs_of(rng, count):
    return [rng.randint(-6, 6) for _ in range(count)]


def mixed(rng, slack=6, share=0.5):
    """A program with a point within its ends."""
    count = rng.randint(1, 7)
    point = [rng.randint(-3, 5) for _ in range(count)]
    variables = [box(rng, value, rng.random() < share) for value in point]
    rows = [held_by(rng, entries_of(rng, count), point, slack) for _ in range(rng.randint(1, 7))]
    return Program("", rng.random() < 0.5, variables, rows, costs_of(rng, count))


def infeasible(rng):
    """A program that two of its rows, or the wholeness of its variables, leave no point."""
    program = mixed(rng)
    program.variables = [(low if low is not None else -9, high if high is not None else 9, whole) for low, high, whole in program.variables]
    entries = entries_of(rng, len(program.variables))
    if rng.random() < 0.5:
        low = rng.randint(-5, 5)
        program.rows += [(low, None, entries), (None, 2 * low - rng.randint(1, 3), {j: 2 * factor for j, factor in entries.items()})]
    else:
        program.variables = [(low, high, True) for low, high, _ in program.variables]
        program.rows.append((odd := 2 * rng.randint(-3, 3) + 1, odd, {j: 2 * factor for j, factor in entries.items()}))
    rng.shuffle(program.rows)
    return program


def unbounded(rng):
    """A program with a direction that no row and no end stops, and that the goal may like."""
    count = rng.randint(1, 6)
    ray, point = [rng.randint(-2, 2) for _ in range(count)], [rng.randint(-3, 5) for _ in range(count)]
    variables = [(value - rng.randint(0, 3) if step >= 0 else None, value + rng.randint(0, 3) if step <= 0 else None, rng.random() < 0.5) for value, step in zip(point, ray)]
    rows = []
    for _ in range(rng.randint(0, 6)):
        entries = entries_of(rng, count)
        along, value = activity(entries, ray), activity(entries, point)
        rows.append((value - rng.randint(0, 5) if along >= 0 else None, value + rng.randint(0, 5) if along <= 0 else None, entries))
    return Program("", rng.random() < 0.5, variables, rows, costs_of(rng, count))


def degenerate(rng):
    """A program many of whose rows meet in a point, some of them more than once."""
    program = mixed(rng, slack=0, share=0.3)
    program.rows += [(low, high, dict(entries)) for low, high, entries in rng.sample(program.rows, rng.randint(0, len(program.rows)))]
    return program


def free(rng):
    """A program most of whose variables have no ends."""
    program = mixed(rng, share=0.3)
    program.variables = [(None, None, whole) if rng.random() < 0.7 else (low, high, whole) for low, high, whole in program.variables]
    return program


def equal_ends(rng):
    """A program some of whose variables and rows are fixed, and some of whose ends cross."""
    program = mixed(rng)
    fixed = [(low, low, whole) if low is not None and rng.random() < 0.5 else (low, high, whole) for low, high, whole in program.variables]
    program.variables = [(low, low - 1, whole) if low is not None and rng.random() < 0.02 else (low, high, whole) for low, high, whole in fixed]
    return program


def types(rng):
    """A program with variables that may be 0 besides their range, whole ones among them."""
    program = mixed(rng)
    zeros = [j for j in range(len(program.variables)) if rng.random() < 0.6]
    for j in zeros:
        whole, low = program.variables[j][2], rng.randint(-6, 5)
        program.variables[j] = (low if rng.random() < 0.9 else None, low + rng.randint(0, 5) if rng.random() < 0.9 else None, whole)
    program.zeros = zeros
    return program


def goals(rng):
    """A program of two to four goals."""
    program = types(rng) if rng.random() < 0.3 else mixed(rng)
    program.costs, *program.later = [[rng.randint(-2, 2) for _ in program.costs] for _ in range(rng.randint(2, 4))]
    return program


KINDS = {make.__name__: make for make in (infeasible, unbounded, degenerate, free, equal_ends, types, goals)}


def program(kind, number):
    made = KINDS[kind](random.Random(f"{kind} {number}"))
    made.name = f"{kind} {number}"
    return made
