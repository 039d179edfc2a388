"""Times `check`: seconds, peak memory, and how both grow with a tree's nodes and with a leaf's entries.

The tree shows by cases that 2 x0 - 2 x1 = 1 has no whole solution within its bounds: 100,001 nodes over 2 variables
and 1 row. The leaf shows by 1,000 multipliers that a point is optimal, over 1,000 rows with 100,000 entries. Then the
same where each variable has a multiplier too: once all are written out, once those of rows alone, which decide the
others. What `check` answers is compared, so a figure is that of a whole proof.
"""

import os
import random
import sys
import tempfile

from measuring import peak_of

RUNS = 5
PROGRAM = os.path.abspath("crates/os_main/out/os_main")
VARIABLES = 1000
ROW_ENTRIES = 100


def listed(name, numbers):
    return f"<{name}>" + "".join(f"<el>{number}</el>" for number in numbers) + f"</{name}>"


def osil(variables, objectives, rows, starts, columns, values):
    """An OSiL document whose matrix is listed by rows."""
    matrix = listed("start", starts) + listed("colIdx", columns) + listed("value", values)
    return (
        f"<osil><instanceData><variables>{variables}</variables>{objectives}<constraints>{rows}</constraints>"
        f"<linearConstraintCoefficients>{matrix}</linearConstraintCoefficients></instanceData></osil>"
    )


def osrl(status, results):
    """A result document with these items of a certificate."""
    parts = "".join(
        f'<otherSolutionResult name="os_cert.{name}">' + "".join(f"<item>{item}</item>" for item in items)
        + "</otherSolutionResult>"
        for name, items in results
    )
    return (
        '<osrl><general><generalStatus type="normal"/></general><job><status>finished</status></job><optimization>'
        f'<solution><status type="{status}"/><otherSolutionResults>{parts}</otherSolutionResults></solution>'
        "</optimization></osrl>"
    )


def tree(nodes):
    """No whole point: x0 at most k beside x1 at least k makes the row at most 0, the next x0 beside that x1 at least 2."""
    splits = nodes // 2
    most = splits // 2
    items = []
    for k in range(most):
        items += [f"split 0 {k}", "farkas 0:-2 1:2 2:1", f"split 1 {k}", "farkas 0:2 1:-2 2:-1"]
    items.append("farkas 0:-2 1:2 2:1")
    variables = f'<var type="I" ub="{most}" mult="2"/>'
    instance = osil(variables, "", '<con lb="1" ub="1"/>', [0, 2], [0, 1], [2, -2])
    return len(items), instance, osrl("infeasible", [("tree", items)]), "accepted infeasible\n"


def leaf(rows, kind="leaf"):
    """The point of ones is best: each row is at its lower end there, and the costs are a sum of the rows. Where variables
    have multipliers too, they are at their lower ends, and the costs are greater by these."""
    rng = random.Random(1)
    own = [] if kind == "leaf" else [rng.randint(1, 9) for _ in range(VARIABLES)]
    columns, values, lows, costs = [], [], [], list(own) or [0] * VARIABLES
    named = [f"{j}:{factor}" for j, factor in enumerate(own)] if kind == "variables" else []
    factors = [rng.randint(1, 9) for _ in range(rows)]
    for factor in factors:
        chosen = sorted(rng.sample(range(VARIABLES), ROW_ENTRIES))
        entries = [rng.randint(1, 99) for _ in chosen]
        lows.append(sum(entries))
        for column, entry in zip(chosen, entries):
            costs[column] += factor * entry
        columns += chosen
        values += entries
    objectives = "".join(f'<coef idx="{j}">{cost}</coef>' for j, cost in enumerate(costs))
    instance = osil(
        f'<var lb="{1 if own else 0}" mult="{VARIABLES}"/>',
        f"<objectives><obj>{objectives}</obj></objectives>",
        "".join(f'<con lb="{low}"/>' for low in lows),
        range(0, len(values) + 1, ROW_ENTRIES),
        columns,
        values,
    )
    word = "boundRows" if kind == "rows" else "bound"
    bound = " ".join([word, *named, *(f"{VARIABLES + i}:{factor}" for i, factor in enumerate(factors))])
    results = [("point", ["1"] * VARIABLES), ("value", [sum(costs)]), ("tree", [bound])]
    return len(values), instance, osrl("optimal", results), "accepted optimal\n"


def measured(words, wanted):
    """The least seconds of some runs, and the peak memory in bytes."""
    seconds = None
    for _ in range(RUNS):
        with tempfile.TemporaryFile() as out:
            pid = os.posix_spawnp(
                words[0], words, os.environ,
                file_actions=[(os.POSIX_SPAWN_DUP2, out.fileno(), 1)],
            )
            _, status, usage = os.wait4(pid, 0)
            out.seek(0)
            answer = out.read().decode()
        if status != 0 or answer != wanted:
            sys.exit(f"{words} ended with {status} and answered {answer!r}")
        spent = usage.ru_utime + usage.ru_stime
        seconds = spent if seconds is None else min(seconds, spent)
    return seconds, peak_of(words, os.devnull)


def timed(folder, name, cases):
    """Measures growing documents of one kind, and says how much more each takes than the one before."""
    before = None
    for size, instance, result, wanted in cases:
        words = [PROGRAM, "check"]
        for end, text in (("osil", instance), ("osrl", result)):
            words.append(os.path.join(folder, f"{name}.{end}"))
            with open(words[-1], "w") as f:
                f.write(text)
        seconds, peak = measured(words, wanted)
        growth = f"{seconds / before:.1f}" if before else ""
        print(f"{name} | {size} | {len(instance)} | {len(result)} | {seconds:.3f} | {growth} | {peak / 1e6:.1f}")
        before = seconds


def main():
    print("proof | nodes or entries | instance bytes | result bytes | s | times the one before | peak MB")
    with tempfile.TemporaryDirectory() as folder:
        timed(folder, "tree", (tree(nodes) for nodes in (1_001, 10_001, 20_001, 40_001, 100_001)))
        for kind in ("leaf", "variables", "rows"):
            timed(folder, kind, (leaf(rows, kind) for rows in (10, 100, 1_000)))


if __name__ == "__main__":
    main()
