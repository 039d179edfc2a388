"""Reads instances (OSiL) and results (OSrL) for tools that show them: `docs/rules/instances.md`, `docs/rules/results.md`.

Numbers are exact. It says what a document says and doesn't judge it: `./os check` does.
"""

import fractions
import math
import re

from linear_program import Complaint, printable, read_bytes

from gubnatris.instances import Column, count, read_instance, tree_of
from gubnatris.limits import MOST_DOCUMENT

RATIO = re.compile(r"-?\d+(?:/\d+)?")
CERTIFICATE = "os_cert."
# the words of leaves that name no variable, and of what they are once they are completed
OF_ROWS = {"farkasRows": "farkas", "boundRows": "bound", "gridRows": "grid"}


def named(column, otherwise):
    """Gives a variable, a row or an objective a name that can be shown: its own, or another one."""
    column.name = printable(column.name) or otherwise


def instance_of(path):
    """The instance in a file, each variable and row with a name."""
    instance = read_instance(read_bytes(path, MOST_DOCUMENT))
    instance.name, instance.description = printable(instance.name), printable(instance.description)
    for k, column in enumerate(instance.variables):
        named(column, f"variable {k}")
    for k, column in enumerate(instance.rows):
        named(column, f"row {k}")
    for goal in instance.goals:
        named(goal, "")
    return instance


def ratio(text):
    if not RATIO.fullmatch(text) or len(text) > 100 or text.endswith("/0"):
        raise Complaint(f"an item of the certificate is {text[:40]!r}, which is no ratio")
    return fractions.Fraction(text)


class Node:
    """A node of a tree of cases: a split (its column, the value, the two cases), a zero (its variable), a clash (its column), a farkas or
    a bound (their multipliers by columns), or a grid (its step too). The number is its place in its tree, from 1. A leaf of rows alone
    has the multipliers of variables too, once its tree is read."""

    def __init__(self, number, kind, column=None, value=None, multipliers=(), step=None):
        self.number, self.kind, self.column, self.value, self.multipliers, self.step = number, kind, column, value, list(multipliers), step
        self.is_of_rows = False


def column_of(text, most, where):
    if not re.fullmatch(r"\d{1,9}", text) or int(text) >= most:
        raise Complaint(f"{where} names the column {text[:20]!r}, and the instance has {most}")
    return int(text)


def pairs_of(pieces, most, where):
    pairs = [piece.partition(":") for piece in pieces]
    return [(column_of(c, most, where), ratio(m)) for c, _, m in pairs]


def step_of(text, where):
    step = ratio(text)
    if step <= 0:
        raise Complaint(f"{where} has the step {text[:20]!r}, which isn't above 0")
    return step


def names_rows(multipliers, variables, where):
    """Complains of a variable among the multipliers of rows alone."""
    named = [column for column, _ in multipliers if column < variables]
    if named:
        raise Complaint(f"{where} is of rows alone, and names the column {named[0]}, which is a variable")


def rows_of(node, variables, where):
    """A leaf of rows alone, which names no variable."""
    names_rows(node.multipliers, variables, where)
    node.is_of_rows = True
    return node


def node_of(text, number, variables, columns):
    """A node, of so many variables and so many columns."""
    kind, *pieces = text.split(" ")
    where = f"node {number} of its tree"
    if kind in OF_ROWS:
        return rows_of(node_of(" ".join([OF_ROWS[kind], *pieces]), number, variables, columns), variables, where)
    if kind == "split" and len(pieces) == 2:
        return Node(number, kind, column_of(pieces[0], columns, where), ratio(pieces[1]))
    if kind == "zero" and len(pieces) == 1:
        return Node(number, kind, column_of(pieces[0], variables, where))
    if kind == "clash" and len(pieces) == 1:
        return Node(number, kind, column_of(pieces[0], columns, where))
    if kind in ("farkas", "bound"):
        return Node(number, kind, multipliers=pairs_of(pieces, columns, where))
    if kind == "grid" and pieces:
        return Node(number, kind, multipliers=pairs_of(pieces[1:], columns, where), step=step_of(pieces[0], where))
    raise Complaint(f"{where} is {text[:40]!r}, which is none")


def rounded(variable, form):
    """What a round of rows makes of the form at a variable: a whole number where the variable is whole, and else 0."""
    if not variable.whole:
        return 0
    return math.floor(form) if variable.low is None else math.ceil(form)


def round_of(text, number, instance, rows):
    """The multipliers of a round, over the instance's columns and the rows of those before it; those of variables are made where it is of
    rows alone."""
    kind, *pieces = text.split(" ")
    where, variables = f"round {number} of it", len(instance.variables)
    if kind not in ("round", "roundRows"):
        raise Complaint(f"{where} is {text[:40]!r}, which is none")
    multipliers = pairs_of(pieces, variables + len(rows), where)
    if kind == "round":
        return multipliers
    names_rows(multipliers, variables, where)
    form = form_of(multipliers, variables, rows)
    left = [(j, rounded(variable, form.get(j, 0)) - form.get(j, fractions.Fraction(0))) for j, variable in enumerate(instance.variables)]
    return [pair for pair in left if pair[1]] + multipliers


def rounds_of(texts, instance):
    rounds, rows = [], list(instance.factors)
    for text in texts:
        rounds.append(round_of(text, len(rounds) + 1, instance, rows))
        rows.append(form_of(rounds[-1], len(instance.variables), rows))
    return rounds


class Result:
    """What a result document says: whether it reports an error, its job, message and status, and the claim with its certificate: the rounds
    of the first tree, and the nodes of each tree, one for each objective that is asked. Where a search ended early, a bound may stand there
    for the first objective, with its tree."""

    def __init__(self):
        self.is_error, self.job, self.message, self.status, self.claim, self.parts = False, "", "", "", None, {}
        self.point = self.ray = self.cause = self.bound = None
        self.values, self.rounds, self.trees = [], [], []

    value = property(lambda self: self.values[0] if self.values else None)
    nodes = property(lambda self: [node for nodes in self.trees for node in nodes])


def path_text(root, *names):
    element = root.find(*names)
    return printable(element.text.strip()) if element else ""


def form_of(multipliers, variables, rows):
    """The sum of columns, each times its multiplier, by variables."""
    form = {}
    for column, multiplier in multipliers:
        for j, factor in ({column: 1} if column < variables else rows[column - variables]).items():
            form[j] = form.get(j, 0) + multiplier * factor
    return form


def minimising_costs(goal):
    return {j: -cost if goal.maximise else cost for j, cost in goal.costs.items()}


def rows_at(instance, result, level):
    """The coefficients of the rows at a level: the instance's, and those that rounds or the objectives before it add."""
    rows = list(instance.factors)
    for multipliers in result.rounds if level == 0 else []:
        rows.append(form_of(multipliers, len(instance.variables), rows))
    return rows + [minimising_costs(goal) for goal in instance.goals[:level]]


def complete(instance, result):
    """Gives each leaf of rows alone the multipliers of variables, which are what its rows leave of the form that is wanted."""
    variables = len(instance.variables)
    for level, nodes in enumerate(result.trees):
        rows = rows_at(instance, result, level) if any(node.is_of_rows for node in nodes) else []
        for node in (node for node in nodes if node.is_of_rows):
            wanted = {} if node.kind == "farkas" or not instance.goals else minimising_costs(instance.goals[level])
            form = form_of(node.multipliers, variables, rows)
            left = [(j, wanted.get(j, fractions.Fraction(0)) - form.get(j, 0)) for j in range(variables)]
            node.multipliers = [pair for pair in left if pair[1]] + node.multipliers


def find_whole_tree(nodes):
    """Whether the nodes are one tree in preorder."""
    wanted = 1
    for at, node in enumerate(nodes):
        wanted += 1 if node.kind in ("split", "zero") else -1
        if wanted == 0 and at + 1 < len(nodes):
            raise Complaint(f"its tree has ended before node {nodes[at + 1].number}")
    if nodes and wanted:
        raise Complaint(f"its tree lacks {wanted} cases")


def read_trees(result, instance):
    """The rounds, and the trees, whose columns are the instance's and then one for each round, or for each objective before."""
    variables, columns = len(instance.variables), len(instance.columns())
    result.rounds = rounds_of(result.parts.get("rounds", []), instance)
    for text in result.parts.get("tree", []):
        level = re.fullmatch(r"level (\d{1,9})", text)
        if level:
            result.trees += [[]] * (not result.trees)
            if int(level[1]) != len(result.trees) + 1 or int(level[1]) > len(instance.goals):
                raise Complaint(f"it has {text} behind {len(result.trees)} trees, and the instance has {len(instance.goals)} objectives")
            result.trees.append([])
            continue
        result.trees = result.trees or [[]]
        added = len(result.rounds) if len(result.trees) == 1 else len(result.trees) - 1
        result.trees[-1].append(node_of(text, len(result.trees[-1]) + 1, variables, columns + added))
    for nodes in result.trees:
        find_whole_tree(nodes)
    complete(instance, result)


def read_bound(result):
    """The bound of a search that ended early, which has one number and a tree; where there is none, a tree shows nothing."""
    if result.claim not in ("bestSoFar", "unsure"):
        return
    if "bound" not in result.parts:
        result.parts.pop("tree", None)
        result.parts.pop("rounds", None)
        return
    numbers = [ratio(text) for text in result.parts["bound"]]
    if len(numbers) != 1 or not result.parts.get("tree"):
        raise Complaint(f"its bound has {len(numbers)} numbers and {len(result.parts.get('tree', []))} nodes, and one number and a tree are a bound")
    result.bound = numbers[0]


def read_claim(result, solution, instance):
    status = solution.find("status")
    result.claim = printable(status.attributes.get("type", "")) if status else ""
    others = solution.find("otherSolutionResults")
    for part in others.all("otherSolutionResult") if others else []:
        name = part.attributes.get("name", "")
        if name.startswith(CERTIFICATE):
            result.parts[name.removeprefix(CERTIFICATE)] = [item.text for item in part.all("item")]
    for name in ("point", "ray"):
        if name in result.parts:
            numbers = [ratio(text) for text in result.parts[name]]
            if len(numbers) != len(instance.variables):
                raise Complaint(f"it isn't a result of this instance: its {name} has {len(numbers)} numbers, and there are {len(instance.variables)} variables")
            setattr(result, name, numbers)
    result.values = [ratio(text) for text in result.parts.get("value", [])]
    if result.values and len(result.values) != len(instance.goals):
        raise Complaint(f"it isn't a result of this instance: it has {len(result.values)} values, and there are {len(instance.goals)} objectives")
    result.cause = printable(result.parts["cause"][0]) if result.parts.get("cause") else None
    read_bound(result)
    read_trees(result, instance)
    if result.bound is not None and len(result.trees) > 1:
        raise Complaint("its bound has several trees, and a bound is of one objective")


def result_of(path, instance):
    """The result in a file, of this instance."""
    root = tree_of(read_bytes(path, MOST_DOCUMENT), "OSrL", "osrl")
    result, general = Result(), root.find("general", "generalStatus")
    result.is_error = general is not None and general.attributes.get("type") == "error"
    result.job, result.message = path_text(root, "general", "jobID"), path_text(root, "general", "message")
    result.status = path_text(root, "job", "status")
    optimization = root.find("optimization")
    solution = optimization.find("solution") if optimization else None
    if solution is not None:
        read_claim(result, solution, instance)
    return result
