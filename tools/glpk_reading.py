"""What GLPK reads in a planner's file, as a peer of the tools that make OSiL of it.

`glpsol --wglp` writes what was read in GLPK's own format, with 15 digits (GLPK Reference Manual, routine `glp_write_prob`). It is
compared with the OSiL field by field.
"""

import os
import re
import subprocess
import sys

sys.path.insert(0, os.path.dirname(os.path.abspath(__file__)))

import job_documents

NEAR = 1e-11  # GLPK computes ends of ranges in binary fractions
ENDS = {"f": (0, 0), "l": (1, 0), "u": (0, 1), "d": (1, 1), "s": (1, 0)}


class Reading:
    """Names and ends of rows and columns, which columns are whole, factors and costs, all counted from 0; the cost -1 is the constant."""

    def __init__(self):
        self.sense, self.rows, self.columns, self.whole, self.factors, self.names = "", {}, {}, set(), {}, {}


def ends_of(words):
    """The lower and the upper end that a kind and its numbers say."""
    kind, numbers = words[0], [float(word) for word in words[1:]]
    if kind == "s":
        return numbers[0], numbers[0]
    low, high = ENDS[kind]
    return numbers.pop(0) if low else None, numbers.pop(0) if high else None


def reading_of(text):
    """What a text in GLPK's own format says."""
    found, is_whole = Reading(), False
    for line in text.splitlines():
        words = line.split()
        if words[0] == "p":
            is_whole, found.sense = words[1] == "mip", words[2]
            found.rows = {i: (0.0, 0.0) for i in range(int(words[3]))}
            found.columns = {j: (0.0, 1.0 if is_whole else None) for j in range(int(words[4]))}
            found.whole = set(found.columns) if is_whole else set()
        elif words[0] == "i":
            found.rows[int(words[1]) - 1] = ends_of(words[2:])
        elif words[0] == "j":
            column = int(words[1]) - 1
            if is_whole and words[2] == "c":
                found.whole.discard(column)
            found.columns[column] = ends_of(words[3:] if is_whole else words[2:])
        elif words[0] == "a":
            found.factors[int(words[1]) - 1, int(words[2]) - 1] = float(words[3])
        elif words[0] == "n" and words[1] in "ij":
            found.names[words[1], int(words[2]) - 1] = words[3]
    return found


def read_by_glpk(file, words, folder):
    """What GLPK reads in a file with these words, or why it doesn't."""
    out = f"{folder}/glpk.reading"
    if os.path.exists(out):
        os.unlink(out)
    ran = subprocess.run(["glpsol", *words, file, "--check", "--wglp", out], capture_output=True, text=True, check=False)
    if not os.path.exists(out):
        return " ".join(ran.stdout.split("\n")[-3:])
    with open(out, encoding="utf-8") as it:
        return reading_of(it.read())


def is_near(ours, theirs):
    if ours is None or theirs is None:
        return ours is None and theirs is None
    return abs(float(ours) - theirs) <= NEAR * max(1, abs(theirs))


def differences(path, theirs):
    """Where an OSiL file says another program than GLPK reads."""
    instance, found = job_documents.instance_of(path), []
    ours = {(i, j): factor for i, row in enumerate(instance.factors) for j, factor in row.items() if factor}
    ours |= {(-1, j): cost for j, cost in instance.costs.items() if cost}
    ours |= {(-1, -1): instance.constant} if instance.constant else {}
    if (instance.maximise and theirs.sense != "max") or (len(instance.rows), len(instance.variables)) != (len(theirs.rows), len(theirs.columns)):
        return [f"{len(instance.rows)} rows and {len(instance.variables)} variables, where GLPK reads {len(theirs.rows)} and {len(theirs.columns)}"]
    for kind, columns, wanted in (("i", instance.rows, theirs.rows), ("j", instance.variables, theirs.columns)):
        for k, column in enumerate(columns):
            if not (is_near(column.low, wanted[k][0]) and is_near(column.high, wanted[k][1])):
                found.append(f"{column.name} is from {column.low} to {column.high}, where GLPK reads {wanted[k]}")
            own_name = re.fullmatch(r"(row|variable) \d+", column.name)
            if not own_name and (kind, k) in theirs.names and column.name.replace(" ", "") != theirs.names[kind, k]:
                found.append(f"{column.name} is what GLPK names {theirs.names[kind, k]}")
    if {j for j, v in enumerate(instance.variables) if v.whole} != theirs.whole:
        found.append("other variables are whole")
    for place in ours.keys() | theirs.factors.keys():
        if not is_near(ours.get(place, 0), theirs.factors.get(place, 0)):
            found.append(f"at row {place[0]} and variable {place[1]} stands {ours.get(place, 0)}, where GLPK reads {theirs.factors.get(place, 0)}")
    return found
