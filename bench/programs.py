"""Linear and mixed-integer programs made at random, and the texts in which solvers read them."""

import random


class Program:
    """Variables (lower end, upper end, whole), rows (lower end, upper end, entries by column) and costs; None is no end. The variables
    among `zeros` may be 0 besides; `later` has the costs of the goals behind the first, and `constant` is added to each."""

    def __init__(self, name, maximise, variables, rows, costs, zeros=(), later=(), constant=0):
        self.name, self.maximise, self.variables, self.rows, self.costs = name, maximise, variables, rows, costs
        self.zeros, self.later, self.constant = zeros, later, constant

    def is_whole(self):
        return any(whole for _, _, whole in self.variables)


def bound(number, infinite):
    return infinite if number is None else str(number)


def listed(name, numbers):
    return f"<{name}>" + "".join(f"<el>{number}</el>" for number in numbers) + f"</{name}>"


def osil(program):
    """An OSiL document, its matrix by rows."""
    variables = "".join(
        f'<var type="{"CIDJ"[whole + 2 * (j in program.zeros)]}" lb="{bound(low, "-INF")}" ub="{bound(high, "INF")}"/>'
        for j, (low, high, whole) in enumerate(program.variables)
    )
    goals = "".join(
        f'<obj maxOrMin="{"max" if program.maximise else "min"}"' + f' constant="{program.constant}"' * bool(program.constant) + ">"
        + "".join(f'<coef idx="{j}">{cost}</coef>' for j, cost in enumerate(costs) if cost)
        + "</obj>"
        for costs in (program.costs, *program.later)
    )
    rows = "".join(f'<con lb="{bound(low, "-INF")}" ub="{bound(high, "INF")}"/>' for low, high, _ in program.rows)
    starts, columns, values = [0], [], []
    for _, _, entries in program.rows:
        columns += sorted(entries)
        values += [entries[column] for column in sorted(entries)]
        starts.append(len(values))
    matrix = listed("start", starts) + listed("colIdx", columns) + listed("value", values) if values else ""
    return (
        '<osil xmlns="os.optimizationservices.org"><instanceData>'
        f'<variables numberOfVariables="{len(program.variables)}">{variables}</variables>'
        f"<objectives>{goals}</objectives>"
        f"<constraints>{rows}</constraints>"
        f"<linearConstraintCoefficients>{matrix}</linearConstraintCoefficients></instanceData></osil>"
    )


def terms(entries):
    """A sum in CPLEX's LP format, a few terms a line."""
    return "\n ".join(f"{'+' if factor >= 0 else '-'} {abs(factor)} x{column}" for column, factor in sorted(entries.items()))


def lp(program):
    """CPLEX's LP format."""
    lines = ["Maximize" if program.maximise else "Minimize"]
    lines.append(" goal: " + terms({j: cost for j, cost in enumerate(program.costs) if cost}))
    lines.append("Subject To")
    for i, (low, high, entries) in enumerate(program.rows):
        if low is not None and low == high:
            lines.append(f" r{i}: {terms(entries)} = {low}")
        else:
            if low is not None:
                lines.append(f" l{i}: {terms(entries)} >= {low}")
            if high is not None:
                lines.append(f" u{i}: {terms(entries)} <= {high}")
    lines.append("Bounds")
    for j, (low, high, _) in enumerate(program.variables):
        lines.append(f" {bound(low, '-inf')} <= x{j} <= {bound(high, '+inf')}")
    if program.is_whole():
        lines.append("Generals")
        lines += [f" x{j}" for j, (_, _, whole) in enumerate(program.variables) if whole]
    if program.zeros:
        lines.append("Semi-Continuous")
        lines += [f" x{j}" for j in program.zeros]
    return "\n".join(lines + ["End", ""])


def smt_sum(entries):
    pieces = [f"(* {factor if factor >= 0 else f'(- {-factor})'} x{column})" for column, factor in sorted(entries.items())]
    return f"(+ 0 {' '.join(pieces)})"


def smt(program):
    """SMT-LIB, with a goal as z3 takes it."""
    lines = []
    for j, (low, high, whole) in enumerate(program.variables):
        lines.append(f"(declare-const x{j} {'Int' if whole else 'Real'})")
        lines += [f"(assert (>= x{j} {low}))"] * (low is not None) + [f"(assert (<= x{j} {high}))"] * (high is not None)
    for low, high, entries in program.rows:
        lines += [f"(assert (>= {smt_sum(entries)} {low}))"] * (low is not None)
        lines += [f"(assert (<= {smt_sum(entries)} {high}))"] * (high is not None)
    goal = smt_sum({j: cost for j, cost in enumerate(program.costs) if cost})
    lines.append(f"({'maximize' if program.maximise else 'minimize'} {goal})")
    return "\n".join(lines + ["(check-sat)", "(get-objectives)", ""])


def transport(sources, targets):
    """Least cost of what every target wants out of what the sources have."""
    rng = random.Random(sources)
    wants = [rng.randint(5, 40) for _ in range(targets)]
    has = [sum(wants) // sources + rng.randint(1, 10) for _ in range(sources)]
    rows = [(None, has[s], {s * targets + t: 1 for t in range(targets)}) for s in range(sources)]
    rows += [(wants[t], None, {s * targets + t: 1 for s in range(sources)}) for t in range(targets)]
    costs = [rng.randint(1, 30) for _ in range(sources * targets)]
    return Program(f"transport {sources}x{targets}", False, [(0, None, False)] * len(costs), rows, costs)


def assignment(size):
    """The least cost of one task for each worker."""
    rng = random.Random(size)
    rows = [(1, 1, {i * size + j: 1 for j in range(size)}) for i in range(size)]
    rows += [(1, 1, {i * size + j: 1 for i in range(size)}) for j in range(size)]
    costs = [rng.randint(1, 99) for _ in range(size * size)]
    return Program(f"assignment {size}", False, [(0, None, False)] * len(costs), rows, costs)


def sparse(size):
    """As many rows as variables, three entries a row."""
    rng = random.Random(size)
    rows = [(rng.randint(1, 50), None, {j: rng.randint(1, 9) for j in rng.sample(range(size), 3)}) for _ in range(size)]
    costs = [rng.randint(1, 20) for _ in range(size)]
    return Program(f"random {size}x{size}", False, [(0, None, False)] * size, rows, costs)


def knapsack(size, rows):
    """The most valuable things within so many limits of weight."""
    rng = random.Random(size + rows)
    weights = [[rng.randint(5, 60) for _ in range(size)] for _ in range(rows)]
    limits = [(None, sum(row) // 2, dict(enumerate(row))) for row in weights]
    costs = [rng.randint(5, 60) for _ in range(size)]
    return Program(f"knapsack {size}, {rows} rows", True, [(0, 1, True)] * size, limits, costs)


def cover(size):
    """The cheapest sets that have each element, three to six sets an element."""
    rng = random.Random(size)
    rows = [(1, None, {j: 1 for j in rng.sample(range(size), rng.randint(3, 6))}) for _ in range(size)]
    costs = [rng.randint(1, 20) for _ in range(size)]
    return Program(f"cover {size}x{size}", False, [(0, 1, True)] * size, rows, costs)


def staircase(periods):
    """The least cost of what is made and kept over so many periods, of which each hands a part of what it keeps to the next."""
    rng = random.Random(periods)
    rows = []
    for t in range(periods):
        entries = {2 * t: rng.randint(1, 9), 2 * t + 1: -rng.randint(1, 9)}
        if t:
            entries[2 * t - 1] = rng.randint(1, 9)
        wanted = rng.randint(5, 40)
        rows.append((wanted, wanted, entries))
    ends = [(0, rng.randint(20, 60) if j % 2 == 0 else None, False) for j in range(2 * periods)]
    costs = [rng.randint(1, 30) if j % 2 == 0 else rng.randint(1, 4) for j in range(2 * periods)]
    return Program(f"staircase {periods}", False, ends, rows, costs)


def timetable(events, slots, clashes):
    """The best liked slot of each event, where so many pairs of events can't share one."""
    rng = random.Random(events)
    pairs = rng.sample([(i, j) for i in range(events) for j in range(i)], clashes)
    rows = [(1, 1, {i * slots + s: 1 for s in range(slots)}) for i in range(events)]
    rows += [(None, 1, {i * slots + s: 1, j * slots + s: 1}) for i, j in pairs for s in range(slots)]
    costs = [rng.randint(1, 20) for _ in range(events * slots)]
    return Program(f"timetable {events}", True, [(0, 1, True)] * len(costs), rows, costs)


def fixed_charge(sources, targets):
    """Least cost of what every target wants, where each way that is used costs a charge beside what goes over it."""
    rng = random.Random(sources)
    ways = sources * targets
    wants = [rng.randint(5, 40) for _ in range(targets)]
    has = [sum(wants) // sources + rng.randint(5, 20) for _ in range(sources)]
    rows = [(None, has[s], {s * targets + t: 1 for t in range(targets)}) for s in range(sources)]
    rows += [(wants[t], None, {s * targets + t: 1 for s in range(sources)}) for t in range(targets)]
    rows += [(None, 0, {w: 1, ways + w: -min(has[w // targets], wants[w % targets])}) for w in range(ways)]
    costs = [rng.randint(1, 40) for _ in range(ways)] + [rng.randint(1, 4) for _ in range(ways)]
    return Program(f"fixed charge {sources}x{targets}", False, [(0, None, False)] * ways + [(0, 1, True)] * ways, rows, costs)


def general_assignment(agents, tasks):
    """The least cost of one agent for each task, within what each agent has time for."""
    rng = random.Random(agents * tasks)
    times = [[rng.randint(5, 25) for _ in range(tasks)] for _ in range(agents)]
    rows = [(1, 1, {a * tasks + t: 1 for a in range(agents)}) for t in range(tasks)]
    rows += [(None, 21 * sum(times[a]) // (20 * agents), {a * tasks + t: times[a][t] for t in range(tasks)}) for a in range(agents)]
    costs = [rng.randint(10, 50) for _ in range(agents * tasks)]
    return Program(f"general assignment {agents}x{tasks}", False, [(0, 1, True)] * len(costs), rows, costs)


def job_shop(jobs, machines, seed=0):
    """The least time in which all jobs are done, each of which goes over each machine once, in an order of its own, while no machine has
    two jobs at once (big-M form, Manne 1960). `seed`: for another one of that size."""
    rng = random.Random(jobs * machines + 1000 * seed)
    orders = [rng.sample(range(machines), machines) for _ in range(jobs)]
    times = [[rng.randint(1, 20) for _ in range(machines)] for _ in range(jobs)]
    longest = sum(map(sum, times))
    end = jobs * machines  # the variable of the whole time; before it stand the starts, behind it which of two jobs comes first
    pairs = [(i, j, m) for m in range(machines) for j in range(jobs) for i in range(j)]
    rows = [(times[j][a], None, {j * machines + b: 1, j * machines + a: -1}) for j in range(jobs) for a, b in zip(orders[j], orders[j][1:])]
    rows += [(times[j][orders[j][-1]], None, {end: 1, j * machines + orders[j][-1]: -1}) for j in range(jobs)]
    for place, (i, j, m) in enumerate(pairs, end + 1):
        rows.append((times[i][m] - longest, None, {j * machines + m: 1, i * machines + m: -1, place: -longest}))
        rows.append((times[j][m], None, {i * machines + m: 1, j * machines + m: -1, place: longest}))
    variables = [(0, None, False)] * (end + 1) + [(0, 1, True)] * len(pairs)
    return Program(f"job shop {jobs}x{machines}" + f", {seed}" * bool(seed), False, variables, rows, [0] * end + [1] + [0] * len(pairs))


def lot_sizing(products, periods):
    """The least cost of what is made and kept, where a product is made in lots of a least and a greatest size, one a period at most, and a
    period has time for so much."""
    rng = random.Random(products * periods)
    lots = products * periods
    wants = [[rng.randint(5, 40) for _ in range(periods)] for _ in range(products)]
    ends = [(rng.randint(30, 50), rng.randint(70, 99), False) for _ in range(products) for _ in range(periods)]
    rows = []
    for p in range(products):
        for t in range(periods):
            before = {lots + p * periods + t - 1: 1} if t else {}
            rows.append((wants[p][t], wants[p][t], before | {p * periods + t: 1, lots + p * periods + t: -1}))
    rows += [(None, 50 * products, {p * periods + t: 1 for p in range(products)}) for t in range(periods)]
    costs = [rng.randint(1, 20) for _ in range(lots)] + [rng.randint(1, 4) for _ in range(lots)]
    return Program(f"lot sizing {products}x{periods}", False, ends + [(0, None, False)] * lots, rows, costs, zeros=range(lots))


def with_choices(program):
    """The program with a whole variable of 0 or 1 for each that may be 0 besides (big-M form)."""
    count = len(program.variables)
    variables, rows = list(program.variables), list(program.rows)
    for choice, j in enumerate(program.zeros, count):
        low, high, whole = variables[j]
        variables[j] = (0, high, whole)
        rows += [(0, None, {j: 1, choice: -low}), (None, 0, {j: 1, choice: -high})]
    costs = program.costs + [0] * len(program.zeros)
    return Program(program.name, program.maximise, variables + [(0, 1, True)] * len(program.zeros), rows, costs)


def with_goals(program, count):
    """The program with so many goals in place of its own, whose few different costs leave many points for the goals after them."""
    rng = random.Random(count)
    goals = [[rng.randint(1, 4) for _ in program.costs] for _ in range(count)]
    return Program(f"{program.name}, {count} goals", program.maximise, program.variables, program.rows, goals[0], later=goals[1:])


def with_row(program, costs, value):
    """The program with these costs, where its own have this value."""
    row = (value.numerator, value.numerator, {j: value.denominator * cost for j, cost in enumerate(program.costs) if cost})
    return Program(program.name, program.maximise, program.variables, [*program.rows, row], costs)


def generated(size):
    """The instance of `generate`."""
    variables = [(0, 3, j < 4) for j in range(size)]
    rows = [(None, 7, {j: 2 for j in range(4 * i, min(4 * i + 4, size))}) for i in range((size + 3) // 4)]
    return Program(f"generate {size}", True, variables, rows, [j % 4 + 1 for j in range(size)])


def all_programs():
    return [
        transport(10, 20), transport(20, 40), transport(20, 50), transport(30, 33), assignment(10), assignment(20), assignment(30),
        assignment(31), sparse(20), sparse(50), sparse(100), sparse(200), sparse(500), sparse(1000), staircase(300), knapsack(20, 1), knapsack(30, 1), knapsack(40, 1),
        knapsack(20, 2), knapsack(30, 2), knapsack(20, 3), knapsack(30, 3), cover(20), cover(30), cover(40),
        timetable(40, 8, 110), fixed_charge(8, 12), general_assignment(5, 25), generated(1000),
    ]
