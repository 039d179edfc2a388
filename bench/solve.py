"""Times `solve` beside exact and floating solvers on the same programs, in one run, and compares the objectives.

A figure is the least processor seconds of five runs, process start included. A peer that takes longer than the limit has no
figure, and neither has one that doesn't take whole variables. The ratio is to the fastest exact peer. How many turns of the simplex method
a search makes is the least limit of turns that doesn't end it.
"""

import fractions
import os
import re
import resource
import subprocess
import sys
import tempfile

import programs

RUNS = 5
LIMIT = 20
PROGRAM = os.path.abspath(os.environ.get("OS_MAIN", "crates/os_main/out/os_main"))


def limited():
    resource.setrlimit(resource.RLIMIT_CPU, (LIMIT, LIMIT + 1))


def run(words):
    """The processor seconds of a run, its greatest memory in bytes and what it wrote; none past the limit."""
    with tempfile.TemporaryFile() as out:
        process = subprocess.Popen(words, stdin=subprocess.DEVNULL, stdout=out, stderr=subprocess.DEVNULL, preexec_fn=limited)
        _, status, usage = os.wait4(process.pid, 0)
        process.returncode = status
        out.seek(0)
        text = out.read().decode(errors="replace")
    seconds = usage.ru_utime + usage.ru_stime
    return None if os.WIFSIGNALED(status) or seconds >= LIMIT else (seconds, usage.ru_maxrss * 1024, text)


def number(text):
    return fractions.Fraction(text.strip())


def smt_number(text):
    """The value that z3 writes: `3`, `(- 3)`, `(/ 1 3)` or `(- (/ 1 3))`."""
    words = re.findall(r"[-/]|\d+(?:\.\d+)?", text)
    sign, digits = words.count("-"), [number(word) for word in words if word not in "-/"]
    value = digits[0] / digits[1] if "/" in words else digits[0]
    return -value if sign % 2 else value


def first(pattern, text):
    found = re.search(pattern, text)
    return found and found.group(1)


def ours(folder):
    return [PROGRAM, "solve", f"{folder}/osil"]


def our_values(text):
    """The value of each goal, or the cause."""
    values = first(r'os_cert\.value">(.*?)</otherSolutionResult>', text)
    cause = first(r'os_cert\.cause"><item>([^<]*)<', text)
    return cause or (values and [number(value) for value in re.findall(r"<item>([^<]*)<", values)])


def our_value(text, _):
    values = our_values(text)
    return values[0] if isinstance(values, list) else values


def nodes_of(text):
    """How many cases the trees of a result have; none where it carries none."""
    tree = first(r'os_cert\.tree">(.*?)</otherSolutionResult>', text)
    return tree.count("<item>") - tree.count("<item>level ") if tree else None


def esolver_value(_, folder):
    with open(f"{folder}/esolver.sol", encoding="utf-8") as it:
        value = first(r"Value = (\S+)", it.read())
    return value and number(value)


def glpsol_value(_, folder):
    with open(f"{folder}/glpsol.out", encoding="utf-8") as it:
        value = first(r"Objective:\s+goal = (\S+)", it.read())
    return value and number(value)


def cbc_value(text, _):
    value = first(r"Objective value:\s+(\S+)", text) or first(r"Optimal objective (\S+)", text)
    return value and number(value)


def z3_value(text, _):
    value = first(r"\(objectives\s+\((?:\(.*\) )?(.*)\)\s*\)", text.replace("\n", " "))
    return value and smt_number(value.rsplit(") ", 1)[-1] if value.count("(") > 3 else value)


# name, words, what it says of the objective, whether it is exact, whether it takes whole variables
SOLVERS = [
    ("ours", ours, our_value, True, True),
    ("esolver", lambda folder: ["esolver", "-O", f"{folder}/esolver.sol", "-L", f"{folder}/lp"], esolver_value, True, False),
    ("glpsol --exact", lambda folder: ["glpsol", "--exact", "--lp", f"{folder}/lp", "-o", f"{folder}/glpsol.out"], glpsol_value, True, False),
    ("z3", lambda folder: ["z3", f"{folder}/smt2"], z3_value, True, True),
    ("glpsol", lambda folder: ["glpsol", "--lp", f"{folder}/lp", "-o", f"{folder}/glpsol.out"], glpsol_value, False, True),
    ("cbc", lambda folder: ["cbc", f"{folder}/lp.lp", "solve"], cbc_value, False, True),
]


def timed(words, folder, read):
    """The least seconds of some runs, the greatest memory, the objective and the last output; none past the limit."""
    best, peak, value, text = None, 0, None, ""
    for _ in range(RUNS):
        ran = run(words(folder))
        if ran is None:
            return None
        seconds, memory, text = ran
        best, peak, value = seconds if best is None else min(best, seconds), max(peak, memory), read(text, folder)
        if seconds > 2:
            break  # once is enough where it takes long
    return best, peak, value, text


OPTIONS = '<osol><optimization><solverOptions><solverOption name="{name}" value="{value}"/></solverOptions></optimization></osol>'


def put_option(name, value, folder):
    with open(f"{folder}/osol", "w", encoding="utf-8") as it:
        it.write(OPTIONS.format(name=name, value=value))


def is_ended_by(turns, folder):
    """Whether so many turns aren't enough."""
    put_option("pivotLimit", turns, folder)
    return "turnLimit" in run([*ours(folder), "--options", f"{folder}/osol"])[2]


def turns_of(folder):
    """How many turns are made until the search ends."""
    low, high = 0, 1
    while is_ended_by(high, folder):
        low, high = high, 2 * high
    while low + 1 < high:
        middle = (low + high) // 2
        low, high = (middle, high) if is_ended_by(middle, folder) else (low, middle)
    return high


def put(program, folder):
    """Writes the program's texts."""
    lp = programs.lp(program)
    for name, text in (("osil", programs.osil(program)), ("lp", lp), ("lp.lp", lp), ("smt2", programs.smt(program))):
        with open(f"{folder}/{name}", "w", encoding="utf-8") as it:
            it.write(text)


def compared(program, folder):
    """A row of the table; whether exact objectives agree."""
    put(program, folder)
    found, agrees = {}, True
    for name, words, read, exact, takes_whole in SOLVERS:
        if takes_whole or not program.is_whole():
            found[name] = timed(words, folder, read), exact
    (mine, _), others = found["ours"], [(name, it) for name, (it, exact) in found.items() if exact and name != "ours" and it]
    for name, (_, _, value, _) in others:
        close = name.startswith("glpsol")  # it writes six digits
        if isinstance(mine[2], fractions.Fraction) and value is not None:
            agrees &= abs(value - mine[2]) <= abs(value) / 10**5 if close else value == mine[2]
    fastest = min((it[0] for _, it in others), default=None)
    shown = {name: (f"{it[0]:.3f}" if it else f"> {LIMIT}") for name, (it, _) in found.items()}
    ratio = f"{mine[0] / fastest:.2f}" if mine and fastest else "-"
    what = mine[2] if mine else "-"
    turns, nodes = (turns_of(folder), nodes_of(mine[3])) if mine else (None, None)
    each = [cell for count in (turns, nodes) for cell in ([str(count), f"{count / mine[0]:.0f}"] if count else ["-", "-"])]
    cells = [program.name, *(shown.get(s[0], "-") for s in SOLVERS), ratio, *each, f"{mine[1] / 1e6:.0f}" if mine else "-", str(what)]
    print("| " + " | ".join(cells) + " |", flush=True)
    return agrees


def main():
    print("| program | " + " | ".join(s[0] for s in SOLVERS) + " | ours / fastest exact | turns | turns a second | nodes | nodes a second | MB | objective, or cause |")
    print("|---" * (len(SOLVERS) + 8) + "|")
    with tempfile.TemporaryDirectory() as folder:
        agreed = [compared(program, folder) for program in programs.all_programs()]
    if not all(agreed):
        sys.exit("objectives of exact solvers differ")


if __name__ == "__main__":
    main()
