"""What a result says of its instance, as people look at it: lines and tables, which text and HTML show alike, and the tree of cases."""

import fractions
import math

import job_documents

CUT = 12  # decimals shown, as the server's own result has them
CAUSES = {
    "nodeLimit": ("it began as many cases as the option nodeLimit allows", "give a greater limit"),
    "turnLimit": ("it made as many turns of the simplex method as the option pivotLimit allows, or --safe", "give a greater limit, without --safe"),
    "gap": ("the best point is as near to the bound as the option gap asks", "give a lesser gap"),
    "timeLimit": ("it took as long as the option maxTime or --seconds allows", "give a longer time"),
    "wide": ("a number passes 128 bits", "use smaller numbers: whole units in place of decimals, other units where sizes differ much"),
    "length": ("the document would be longer than 4,194,304 bytes", "set tighter bounds on the whole variables, so that fewer cases are needed"),
    "killed": ("the job was asked to stop", ""),
    "memory": ("there was no memory", "end other programs, or give a smaller instance"),
}


class Table:
    """A table with a title. Each cell is a text; the columns whose names stand in `numbers` are aligned to the right."""

    def __init__(self, title, head, rows, numbers=()):
        self.title, self.head, self.rows, self.numbers = title, head, rows, numbers


def shown(value):
    """A number as a decimal, cut towards zero, with `..` where something was cut."""
    if value is None:
        return ""
    size, scale = abs(value), 10**CUT
    whole, rest = divmod(size.numerator * scale, size.denominator)
    text = f"{whole // scale}.{whole % scale:0{CUT}}"
    return ("-" if value < 0 else "") + (text + ".." if rest else text.rstrip("0").rstrip("."))


def exact(value):
    """The fraction, where the decimal doesn't say all of it."""
    return "" if value is None or (10**CUT * value).denominator == 1 else str(value)


def ends(column):
    """What a column is restricted to."""
    kind = (" whole" if column.whole else "") + (", or 0" if column.zero else "")
    if column.low is None and column.high is None:
        return f"free{kind}"
    if column.low is not None and column.low == column.high:
        return f"= {shown(column.low)}{kind}"
    if column.low is None or column.high is None:
        return (f"<= {shown(column.high)}" if column.low is None else f">= {shown(column.low)}") + kind
    return f"{shown(column.low)} to {shown(column.high)}{kind}"


def at_end(column, value):
    """At which of its ends a column stands."""
    if column.low is not None and column.low == column.high:
        return "fixed" if value == column.low else ""
    return "lower" if value == column.low else "upper" if value == column.high else ""


def only_leaf(instance, result):
    """The multipliers of an optimum's certificate that is one bound, or none; they are of one objective, and of the instance's own rows."""
    is_leaf = len(instance.goals) == 1 and [node.kind for node in result.nodes] == ["bound"] and not result.rounds
    return dict(result.nodes[0].multipliers) if is_leaf and result.claim == "optimal" else None


def in_own_sense(instance, multiplier):
    """A multiplier of the minimising form as by how much the objective itself changes for one more of the end."""
    return None if multiplier is None else -multiplier if instance.maximise else multiplier


def goal_word(instance, k):
    """What an objective is called."""
    return instance.goals[k].name or ("value" if len(instance.goals) == 1 else f"value of objective {k + 1}")


def worth(instance, result):
    """A sentence for each objective."""
    lines = []
    for k, (goal, value) in enumerate(zip(instance.goals, result.values)):
        name = goal_word(instance, k)
        words = {"optimal": f"{'greatest' if goal.maximise else 'least'} {name}", "unbounded": f"{name} of the point"}
        front = "The" if k == 0 or result.claim != "optimal" else "Among the points that reach this, the" if k == 1 else "Among those, the"
        word = words.get(result.claim, f"best {name} so far")
        lines.append(f"{front} {word} is {shown(value)}" + (f", exactly {exact(value)}" if exact(value) else "") + ".")
    return lines


def how_far(instance, result):
    """A sentence on how good a point can be at most, and how far the point is from that."""
    goal, name = instance.goals[0], goal_word(instance, 0)
    also = f", exactly {exact(result.bound)}" if exact(result.bound) else ""
    line = f"No point's {name} is {'above' if goal.maximise else 'below'} {shown(result.bound)}{also}"
    if not result.values:
        return f"{line}."
    gap = goal.turned(result.values[0]) - goal.turned(result.bound)
    return f"{line}; so {f'the best one is at most {shown(gap)} better than that of this point' if gap > 0 else 'none is better than that of this point'}."


def headline(instance, result):
    """The first line: of what, and how it ended."""
    name = instance.name or "instance"
    if result.is_error:
        return f"{name}: refused"
    return f"{name}: {result.claim or result.status or 'no result'}"


def sentences(instance, result):
    """What is said in words below the headline."""
    if result.is_error:
        return [f"The server refused it: {result.message}.", "docs/rules/instances.md (osil) or options.md (osol) says what that is and where."]
    if result.claim is None:
        return [f"The job is {result.status}; there is no claim in the document."]
    lines = worth(instance, result)
    if result.claim == "unbounded":
        lines.append("There is no best value: from the point on, each step in the direction changes every variable as the table says.")
        if result.ray:
            k = min(len(result.trees), len(instance.goals) - 1)
            lines.append(f"One step changes {instance.goals[k].name or 'the ' + goal_word(instance, k)} by {shown(instance.goals[k].change(result.ray))}.")
    if result.claim == "infeasible":
        lines.append("No values of the variables meet all rows and ends.")
    if result.claim in ("bestSoFar", "unsure"):
        word, _, rest = (result.cause or "").partition(" ")
        what, todo = CAUSES.get(word, ("the search was ended", ""))
        if result.bound is not None:
            lines.append(how_far(instance, result))
        lines.append(f"The search ended with the cause {word}{' ' + rest if rest else ''}: {what}{'; ' + todo if todo else ''}.")
    return lines


def variables_table(instance, result):
    """The variables with their values, their ends, and of one leaf their reduced costs."""
    leaf, rows = only_leaf(instance, result) or {}, []
    for j, (column, value) in enumerate(zip(instance.variables, result.point)):
        row = [column.name, shown(value), exact(value)]
        row += [shown(result.ray[j])] if result.ray else []
        row += [ends(column), at_end(column, value)]
        cost = in_own_sense(instance, leaf.get(j))
        row += [shown(cost), exact(cost)] if leaf else []
        rows.append(row)
    head = ["variable", "value", "exactly", *["direction"] * bool(result.ray), "between", "at its end", *["reduced cost", "exactly"] * bool(leaf)]
    return Table("Variables", head, rows, ("value", "direction", "reduced cost"))


def binding_table(instance, result):
    """The rows that stand at one of their ends, with their duals where the certificate is one leaf."""
    leaf, rows, count = only_leaf(instance, result) or {}, [], len(instance.variables)
    for i, column in enumerate(instance.rows):
        value = instance.activity(i, result.point)
        if at_end(column, value):
            dual = in_own_sense(instance, leaf.get(count + i))
            rows.append([column.name, shown(value), ends(column), at_end(column, value)] + [shown(dual), exact(dual)] * bool(leaf))
    head = ["row", "value", "between", "at its end"] + ["dual", "exactly"] * bool(leaf)
    return Table(f"Rows that bind: {len(rows)} of {len(instance.rows)}", head, rows, ("value", "dual"))


def conflict_table(instance, result):
    """Of an infeasible instance with one leaf: what can't hold together."""
    columns, rows = columns_at(instance, result, 0), []
    for c, multiplier in result.nodes[0].multipliers:
        end = f">= {shown(columns[c].low)}" if multiplier > 0 else f"<= {shown(columns[c].high)}"
        rows.append([columns[c].name, end, shown(multiplier), exact(multiplier)])
    return Table("What can't hold together", ["row or variable", "is", "multiplier", "exactly"], rows, ("is", "multiplier"))


def low_sum(columns, multipliers):
    """The sum of the multipliers times their ends; nothing where an end is wanting."""
    pieces = [(m, columns[c].low if m > 0 else columns[c].high) for c, m in multipliers]
    return None if any(end is None for _, end in pieces) else sum((m * end for m, end in pieces), fractions.Fraction(0))


class Held:
    """The ends of a column in a case, and its name."""

    def __init__(self, column):
        self.name, self.low, self.high = column.name, column.low, column.high
        if column.zero:
            self.low, self.high = None if self.low is None else min(self.low, 0), None if self.high is None else max(self.high, 0)


def columns_at(instance, result, level):
    """The columns of a tree: the instance's, and behind them a row for each round, or for each objective that was asked before."""
    held = [Held(column) for column in instance.columns()]
    for k, multipliers in enumerate(result.rounds if level == 0 else []):
        total = low_sum(held, multipliers)
        held.append(Held(job_documents.Column(f"round {k + 1}", None if total is None else fractions.Fraction(math.ceil(total)), None)))
    for k, goal in enumerate(instance.goals[:level]):
        value = goal.turned(result.values[k]) if result.values else None
        held.append(Held(job_documents.Column(f"{goal_word(instance, k)} as it is", value, value)))
    return held


def notes(instance, result):
    """How to read the tables."""
    lines = []
    if result.claim == "optimal" and only_leaf(instance, result):
        goal = f"the {'greatest' if instance.maximise else 'least'} {goal_word(instance, 0)}"
        lines.append(f"A dual is by how much {goal} changes where the end at which its row stands is raised by one, while the same ends bind; a reduced")
        lines.append("cost is that of a variable's end. How far an end may be raised so isn't told.")
    if result.rounds:
        lines.append(f"Rows that were rounded: {len(result.rounds)}; each holds at every feasible point.")
    if result.claim == "optimal" and len(result.nodes) > 1:
        lines.append("The proof has cases, and each its own multipliers, so there are no duals and no reduced costs.")
    if result.claim == "optimal" and [node.kind for node in result.nodes] == ["grid"]:
        lines.append("The proof rounds to the next value that the objective may have, so there are no duals and no reduced costs.")
    if result.claim == "infeasible" and len(result.nodes) == 1 and result.nodes[0].kind == "farkas":
        total = low_sum(columns_at(instance, result, 0), result.nodes[0].multipliers)
        if total is not None:
            lines.append(f"Their sum, each times its multiplier, has no variable left and says 0 >= {shown(total)}.")
    if result.claim:
        lines.append("This shows what the result says; ./os check tells whether it is shown.")
    return lines


def tables(instance, result):
    """The tables of a result, in order."""
    found = []
    if result.point and result.claim in ("optimal", "unbounded", "bestSoFar"):
        found += [variables_table(instance, result), binding_table(instance, result)]
    if result.claim == "infeasible" and len(result.nodes) == 1 and result.nodes[0].multipliers:
        found.append(conflict_table(instance, result))
    return found


class Case:
    """A node of the tree as it is looked at: how deep, what the case adds, and what the node says."""

    def __init__(self, node, depth, added, said, parent):
        self.node, self.depth, self.added, self.said, self.parent = node, depth, added, said, parent


def said_of(node, goal, held):
    """What a leaf says, within the ends of its case; a split or a zero says which variable."""
    if node.kind in ("split", "zero"):
        return f"split by {held[node.column].name}" + (" into 0 and its own ends" if node.kind == "zero" else "")
    if node.kind == "clash":
        return f"no point: {held[node.column].name} has a lower end above its upper one"
    if node.kind == "farkas":
        names = [held[c].name for c, _ in node.multipliers[:3]]
        return f"no point: {', '.join(names)}{' ..' if len(node.multipliers) > 3 else ''} can't hold together"
    total = low_sum(held, node.multipliers)
    if total is None:
        return node.kind
    if node.kind == "grid":
        total = math.ceil(total / node.step) * node.step
    best = goal.constant - total if goal.maximise else goal.constant + total
    return f"no better than {shown(best)}"


def inner(held, low, high):
    """The ends of a column, as far as they lie within these."""
    lows, highs = [end for end in (held.low, low) if end is not None], [end for end in (held.high, high) if end is not None]
    return max(lows, default=None), min(highs, default=None)


def halves(instance, node, held):
    """The two cases of a split or a zero, the first one last: the column, the ends that it adds, and the words for them."""
    column = instance.variables[node.column] if node.kind == "zero" else held[node.column]
    if node.kind == "zero":
        return [(node.column, column.low, column.high, f"{column.name} within its own ends"), (node.column, 0, 0, f"{column.name} = 0")]
    above = node.value + 1
    return [(node.column, above, None, f"{column.name} >= {above}"), (node.column, None, node.value, f"{column.name} <= {node.value}")]


def cases(instance, result, level):
    """A tree's nodes in their order, each with what it says; no call within another, as a tree may be deep."""
    held, found, goal = columns_at(instance, result, level), [], instance.goals[level]
    # What is still to do: a case to begin (what it adds: the column, its ends, the words), or ends to give back.
    todo, nodes = [("begin", 0, None, None)], iter(result.trees[level])
    while todo:
        what, depth, added, parent = todo.pop()
        if what == "restore":
            column, held[column].low, held[column].high = added
            continue
        text = ""
        if added:
            column, low, high, text = added
            todo.append(("restore", depth, (column, held[column].low, held[column].high), parent))
            held[column].low, held[column].high = inner(held[column], low, high)
        node = next(nodes)
        found.append(Case(node, depth, text, said_of(node, goal, held), parent))
        if node.kind in ("split", "zero"):
            todo += [("begin", depth + 1, half, node.number) for half in halves(instance, node, held)]
    return found


def trees(instance, result):
    """The cases of each tree that has some, with what it is called."""
    several = len(result.trees) > 1
    return [
        (f"Tree of cases{f' of the {goal_word(instance, k)}' if several else ''}: {len(nodes)} nodes", cases(instance, result, k))
        for k, nodes in enumerate(result.trees)
        if nodes and (len(nodes) > 1 or several)
    ]
