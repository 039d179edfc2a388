"""Times what `solve` does with rounding cuts, with variables that may be 0 besides and with several goals, each beside what does without;
compares the objectives exactly. Seconds are measured as those of `solve.py`.
"""

import sys
import tempfile

import programs
import solve

ROUNDS = (10, 50)


def found(program, folder, rounds=0):
    """What our run with so many rounds took, and what it found: its seconds, nodes, rounds, and the values of all goals, or the cause."""
    solve.put(program, folder)
    solve.put_option("rounds", rounds, folder)
    ran = solve.timed(lambda at: [*solve.ours(at), "--options", f"{at}/osol"], folder, lambda text, _: solve.our_values(text))
    if ran is None:
        sys.exit(f"{program.name} takes more than {solve.LIMIT} seconds")
    seconds, _, values, text = ran
    return seconds, solve.nodes_of(text), text.count("<item>round "), values


def peer(name, program, folder):
    """The seconds of a solver that works with floats, and its objective; none where it doesn't take the program."""
    solve.put(program, folder)
    words, read = next((words, read) for other, words, read, *_ in solve.SOLVERS if other == name)
    ran = solve.timed(words, folder, read)
    return ran and ran[2] is not None and (ran[0], ran[2])


def ratio(over, under):
    return f"{over / under:.2f}" if over and under else "-"


def row(*cells):
    print("| " + " | ".join(f"{cell:.3f}" if isinstance(cell, float) else "-" if cell is None else str(cell) for cell in cells) + " |", flush=True)


def head(*cells):
    print()
    row(*cells)
    print("|---" * len(cells) + "|")


def told(values):
    return ", ".join(map(str, values)) if isinstance(values, list) else values


def same(name, *answers):
    """Stops where answers differ; one that wasn't found is told by its cause, a text."""
    known = [values for values in answers if not isinstance(values, str)]
    if any(values != known[0] for values in known):
        sys.exit(f"{name}: {known}")


def tell_rounds(folder):
    head("program", "at most", "rounds", "nodes without", "with", "with / without", "s without", "s with", "with / without", "objective, or cause with rounds")
    knapsacks = [programs.knapsack(size, rows) for rows in (1, 2, 3) for size in (20, 30, 40)]
    for program in knapsacks + [programs.cover(size) for size in (30, 40, 50, 60)]:
        seconds, nodes, _, values = found(program, folder)
        for most in ROUNDS:
            cut_seconds, cut_nodes, rounds, cut_values = found(program, folder, most)
            same(program.name, values, cut_values)
            row(program.name, most, rounds, nodes, cut_nodes, ratio(cut_nodes, nodes), seconds, cut_seconds, ratio(cut_seconds, seconds), told(cut_values))


def tell_zeros(folder):
    head("program", "nodes", "nodes of the big-M form", "s", "s of the big-M form", "/ big-M form", "glpsol, big-M form", "cbc, big-M form", "cbc", "objective, or cause")
    for program in [programs.lot_sizing(*size) for size in ((2, 6), (2, 10), (3, 6), (3, 8), (4, 8))]:
        wider = programs.with_choices(program)
        seconds, nodes, _, values = found(program, folder)
        wide_seconds, wide_nodes, _, wide_values = found(wider, folder)
        same(program.name, values, wide_values)
        others = [peer("glpsol", wider, folder), peer("cbc", wider, folder), peer("cbc", program, folder)]
        row(program.name, nodes, wide_nodes, seconds, wide_seconds, ratio(seconds, wide_seconds), *(it and it[0] for it in others), told(values))


def chain(program, folder):
    """The seconds and nodes of single solves, each with a row more for the goal before, and the value of each."""
    goals, spent, nodes, values = [program.costs, *program.later], 0, 0, []
    program = programs.Program(program.name, program.maximise, program.variables, program.rows, program.costs)
    for costs in goals:
        if values:
            program = programs.with_row(program, costs, values[-1])
        seconds, more, _, value = found(program, folder)
        if not isinstance(value, list):
            return spent + seconds, None, value
        spent, nodes, values = spent + seconds, nodes + more, values + value
    return spent, nodes, values


def tell_goals(folder):
    head("program", "nodes", "nodes of the chain", "/ chain", "s", "s of the chain", "/ chain", "objectives, or cause")
    bases = [programs.transport(10, 20), programs.assignment(20), programs.sparse(50)]
    bases += [programs.knapsack(20, 1), programs.knapsack(30, 1), programs.cover(30), programs.cover(40)]
    for program in [programs.with_goals(base, count) for base in bases for count in (2, 3)]:
        seconds, nodes, _, values = found(program, folder)
        spent, steps, single = chain(program, folder)
        same(program.name, values, single)
        row(program.name, nodes, steps, ratio(nodes, steps), seconds, spent, ratio(seconds, spent), told(values))


def main():
    with tempfile.TemporaryDirectory() as folder:
        for tell in (tell_rounds, tell_zeros, tell_goals):
            tell(folder)


main()
