"""Tries the tools of planners on real input: `mps_to_osil`, `lp_to_osil`, `show_result` and `watch_jobs`.

What the tools say is compared with what stands elsewhere: the cases in `tools/planner_cases/` have beside them what they mean, written by
hand from the formats' references; `glpsol` reads the same files; its values, activities and marginals are those that are shown; and the
states of jobs are those that `os call knock` tells. Each bad input has to end with its status and one line, and to write nothing.
"""

import csv
import fcntl
import fractions
import html.parser
import json
import os
import pty
import re
import select
import signal
import struct
import subprocess
import sys
import tempfile
import termios
import time

sys.dont_write_bytecode = True
TOOLS = os.path.dirname(os.path.abspath(__file__))
sys.path[:0] = [TOOLS, os.path.join(os.path.dirname(TOOLS), "bench")]

import glpk_reading
import job_documents
import programs
import serving

CASES = f"{TOOLS}/planner_cases"
EXAMPLES = "/usr/share/doc/glpk-utils/examples"
PROGRAM = serving.PROGRAM
failures, tried = [], [0]

# file, words of the tool, words of glpsol, what GLPK needs written otherwise, and where it reads another meaning than the references say
CONVERTED = [
    ("spaces.mps", ["mps_to_osil"], ["--mps"], [("    RHS2      PLAIN L   99\n", ""), (" UP OTHER     VAN 2     1\n", "")],
     {"row -1 and variable -1": "GLPK doesn't negate the constant (its manual, B.7: non-standard)"}),
    ("bounds.fmps", ["mps_to_osil", "--free"], ["--freemps"],
     [(" need 3", " RHS need 3"), (" MI minus\n", " MI B minus\n"), (" UP minusUp", " UP B minusUp"), (" BV binary", " BV B binary"),
      (" UP B upInf 1e30\n", ""), (" LO B lowInf -1e300\n", " MI B lowInf\n"), (" UP B upBelowLow -2\n LO B upBelowLow -6", " LO B upBelowLow -6\n UP B upBelowLow -2"),
      (" FR B freeUp\n", " MI B freeUp\n"), (" $ a line that is a comment\n", "")],
     {"onlyLow": "GLPK keeps the upper end 1 of whole variables with a lower bound alone", "upBelow": "GLPK keeps the lower end 0"}),
    ("exact.fmps", ["mps_to_osil", "--free"], ["--freemps", "--max"],
     [("OBJSENSE\n    MAXIMIZE\nOBJNAME\n profit\n", ""), (" N other\n", ""), (" other 5", ""), (" N third\n", ""), (" third 1", "")],
     {"row -1 and variable -1": "GLPK doesn't negate the constant"}),
    ("sections.lp", ["lp_to_osil"], None, [], {}),
    ("semi.lp", ["lp_to_osil"], None, [], {}),
    ("several.lp", ["lp_to_osil"], None, [], {}),
    ("semi.fmps", ["mps_to_osil", "--free"], None, [], {}),
    ("plain.lp", ["lp_to_osil"], ["--lp"], [], {"x is from 0 to 1": "GLPK 5.0 keeps what was said before Binary; its manual (C.5) says that it is dropped"}),
]  # fmt: skip


def check(is_right, name, why=""):
    tried[0] += 1
    if not is_right:
        failures.append(f"{name}: {why}" if why else name)


def ran(words, **given):
    return subprocess.run(words, capture_output=True, text=True, check=False, **given)


def tool(name, *words):
    return ran([sys.executable, f"{TOOLS}/{name}", *words])


def written(folder, name, text):
    path = f"{folder}/{name}"
    with open(path, "wb") as it:
        it.write(text if isinstance(text, bytes) else text.encode())
    return path


# Files into OSiL


def plain(value):
    """A fraction that is a decimal, in all its digits."""
    if value is None:
        return None
    places = next(k for k in range(400) if (value * 10**k).denominator == 1)
    digits = str(abs(int(value * 10**places))).rjust(places + 1, "0")
    return ("-" if value < 0 else "") + (digits[:-places] + "." + digits[-places:] if places else digits)


def facts(instance):
    """What an instance says, one fact a line."""

    def ends(column):
        return f"{'whole ' if column.whole else ''}{plain(column.low) or '-INF'} {plain(column.high) or 'INF'}{' or 0' if column.zero else ''}"

    variables, rows = instance.variables, instance.rows
    lines = [f"{'max' if instance.maximise else 'min'} {instance.goal} constant {plain(instance.constant)}"]
    lines += [f"variable {v.name} {ends(v)}" for v in variables] + [f"row {r.name} {ends(r)}" for r in rows]
    lines += [f"cost {variables[j].name} {plain(cost)}" for j, cost in instance.costs.items()]
    for goal in instance.goals[1:]:
        lines.append(f"then {'max' if goal.maximise else 'min'} {goal.name} constant {plain(goal.constant)}")
        lines += [f"cost of {goal.name}: {variables[j].name} {plain(cost)}" for j, cost in goal.costs.items()]
    lines += [f"in {rows[i].name} {variables[j].name} {plain(factor)}" for i, row in enumerate(instance.factors) for j, factor in row.items()]
    return lines


def try_case(folder, file, words, dialect, edits, otherwise):
    """A case says what stands beside it, and is what GLPK reads, but for the places that are named."""
    osil = f"{folder}/case.osil"
    made = tool(words[0], *words[1:], f"{CASES}/{file}", osil)
    check(made.returncode == 0, file, made.stderr)
    with open(f"{CASES}/{file}.says", encoding="utf-8") as it:
        wanted = it.read().splitlines()
    found = facts(job_documents.instance_of(osil))
    lacking, other = [line for line in wanted if line not in found], [line for line in found if line not in wanted]
    check(not lacking and not other and len(found) == len(wanted), file, f"{lacking} should be {other}")
    solved = ran([PROGRAM, "solve", osil])
    check("type=\"error\"" not in solved.stdout, file, f"the server refuses the OSiL: {solved.stdout}")
    if dialect is None:
        return
    with open(f"{CASES}/{file}", encoding="utf-8") as it:
        text = it.read()
    for old, new in edits:
        check(old in text, f"{file}: {old!r} should stand there for GLPK")
        text = text.replace(old, new)
    reading = glpk_reading.read_by_glpk(written(folder, "glpk", text), dialect, folder)
    if isinstance(reading, str):
        check(False, file, f"GLPK doesn't read it: {reading}")
        return
    places = [place for place in glpk_reading.differences(osil, reading)]
    check(all(any(name in place for name in otherwise) for place in places), file, f"GLPK reads otherwise: {places}")
    check(all(any(name in place for place in places) for name in otherwise), file, f"GLPK reads as we do what it shouldn't: {places}")


def try_examples(folder):
    """The examples that are there as LP or MPS too say the same as their OSiL, whose names may be longer."""
    for file, command, short in (("diet.lp", "lp_to_osil", {}), ("capital_budget.mps", "mps_to_osil", {"warehouse": "stock"})):
        made = tool(command, f"{TOOLS}/../examples/{file}", f"{folder}/osil")
        wanted = facts(job_documents.instance_of(f"{TOOLS}/../examples/{file.split('.')[0]}.osil"))
        wanted = [" ".join(short.get(word, word) for word in line.split()) for line in wanted]
        check(made.stderr == "" and facts(job_documents.instance_of(f"{folder}/osil")) == wanted, file, made.stderr)


def try_input():
    """What comes on the standard input says what it says in a file, and rows of the kind N beyond the goal are told."""
    for file, words in (("semi.fmps", ["mps_to_osil", "--free"]), ("semi.lp", ["lp_to_osil"])):
        with open(f"{CASES}/{file}", encoding="utf-8") as it:
            made = ran([sys.executable, f"{TOOLS}/{words[0]}", *words[1:], "-"], stdin=it)
        wanted = tool(words[0], *words[1:], f"{CASES}/{file}")
        check(made.stdout.replace("<name>input</name>", "<name>semi</name>") == wanted.stdout and made.returncode == 0, f"{file} as input", made.stderr)
    made = tool("mps_to_osil", "--free", f"{CASES}/semi.fmps")
    check(is_one_line(made.stderr, "mps_to_osil", "aren't the goal c restrict nothing and are left out: other"), "a second row of the kind N", made.stderr)


def try_data():
    """JSON and CSV of the examples have the exact numbers that stand in their certificates."""
    for name, status, wanted in (("diet", "optimal", "552/275"), ("transport", "optimal", "6147/40"), ("cutting_stock", "bestSoFar", "453"), ("infeasible_schedule", "infeasible", None)):
        files = [f"{TOOLS}/../examples/{name}.{end}" for end in ("osil", "osrl")]
        found, lines = json.loads(tool("show_result", *files, "--json").stdout), list(csv.reader(tool("show_result", *files, "--csv").stdout.splitlines()))
        instance = job_documents.instance_of(files[0])
        check((found["status"], found["objectives"][0]["exactly"]) == (status, wanted), f"JSON of {name}", str(found["objectives"]))
        check(len({len(line) for line in lines}) == 1 and lines[1][3] == (wanted or ""), f"CSV of {name}", str(lines[:2]))
        if wanted:
            names, point = [line["name"] for line in found["variables"]], [fractions.Fraction(line["exactly"]) for line in found["variables"]]
            own = [column.name.replace("variable ", "x") for column in instance.variables]  # x3 is one without a name
            check(names == own, f"names of {name}", str(names))
            check(str(sum(cost * point[j] for j, cost in instance.costs.items()) + instance.constant) == wanted, f"point of {name}")
            check([line[1] for line in lines[2:]] == names + [line["name"] for line in found["rows"]], f"lines of {name}")
    diet = json.loads(tool("show_result", *(f"{TOOLS}/../examples/diet.{end}" for end in ("osil", "osrl")), "--json").stdout)
    check(diet["rows"][0]["multiplier"]["exactly"] == "3/2750", "a dual as JSON")  # as GLPK finds: 0.00109091


def try_published():
    """Optima that stand in the comments of GLPK's own MPS files, from the books that these programs come from."""
    with tempfile.TemporaryDirectory() as folder:
        for file in ("alloy.mps", "icecream.mps"):
            with open(f"{EXAMPLES}/{file}", encoding="utf-8") as it:
                wanted = float(re.search(r"OPT SOLN: +([\d.]+)", it.read()).group(1))
            tool("mps_to_osil", f"{EXAMPLES}/{file}", f"{folder}/osil")
            solved = ran([PROGRAM, "solve", f"{folder}/osil"]).stdout
            value, _, below = re.search(r'os_cert\.value"><item>([^<]*)<', solved).group(1).partition("/")
            check(abs(int(value) / int(below or 1) - wanted) <= 1e-6 * wanted, file, f"{value}/{below} isn't {wanted}")


def mps(body, rows=" N c\n L r\n"):
    return f"NAME t\nROWS\n{rows}COLUMNS\n x c 1 r 1\n{body}ENDATA\n"


def lines_of(count):
    return "".join(f" x{k} c 1 r 1\n" for k in range(count))


SEVERAL = "min multi-objectives\n {}\nst\n c: x >= 1\nend\n"
# name, tool and flags, text, what the line says
REFUSED = [
    ("LP as MPS", "mps_to_osil", "Minimize\n x\nEnd\n", "it isn't MPS: line 1 begins with 'Minimize'"),
    ("empty", "mps_to_osil", "", "nothing stands in it"),
    ("data before a section", "mps_to_osil", " N c\n", "line 1 stands in no section"),
    ("cut short", "mps_to_osil --free", mps("").replace("ENDATA\n", ""), "ends without ENDATA"),
    ("no columns", "mps_to_osil --free", "NAME\nROWS\n N c\nENDATA\n", "no ROWS or no COLUMNS"),
    ("semi-continuous without an end", "mps_to_osil --free", mps("BOUNDS\n SC B x\n"), "line 8: there is no variable B"),
    ("bound of no kind", "mps_to_osil --free", mps("BOUNDS\n XX B x 5\n"), "line 8: XX is no kind of bound"),
    ("bound of nobody", "mps_to_osil --free", mps("BOUNDS\n UP B y 5\n"), "line 8: there is no variable y"),
    ("quadratic", "mps_to_osil --free", mps("QUADOBJ\n x x 5\n"), "line 7: the section QUADOBJ isn't read"),
    ("sets", "mps_to_osil --free", mps("SOS\n S1 s 1\n"), "line 7: the section SOS isn't read"),
    ("second section", "mps_to_osil --free", mps("RHS\nRHS\n"), "line 8: a second section RHS"),
    ("bounds first", "mps_to_osil --free", "NAME\nBOUNDS\n UP B x 1\n", "BOUNDS stands before COLUMNS"),
    ("no such row", "mps_to_osil --free", mps(" x s 1\n"), "line 7: there is no row s"),
    ("second number", "mps_to_osil --free", mps(" x r 1\n"), "line 7: a second number for the variable x in the row r"),
    ("apart", "mps_to_osil --free", mps(" y r 1\n x c 1\n"), "line 8: the variable x comes a second time"),
    ("second row", "mps_to_osil --free", mps("", " N c\n L r\n L r\n"), "line 5: a second row r"),
    ("kind", "mps_to_osil --free", mps("", " N c\n X r\n"), "line 4: a row's kind is N, E, L or G"),
    ("no number", "mps_to_osil --free", mps(" y r 1,5\n"), "line 7: '1,5' is no number"),
    ("not a number", "mps_to_osil --free", mps(" y r nan\n"), "line 7: 'nan' is no number"),
    ("hexadecimal", "mps_to_osil --free", mps(" y r 0x10\n"), "line 7: '0x10' is no number"),
    ("wide", "mps_to_osil --free", mps(" y r 1e39\n"), "line 7: 1E+39 passes 128 bits"),
    ("narrow", "mps_to_osil --free", mps(" y r 1e-39\n"), "line 7: 1E-39 passes 128 bits"),
    ("huge exponent", "mps_to_osil --free", mps(" y r 1e99999999999999999999\n"), "line 7: 1e99999999999999999999 has too great an exponent"),
    ("great exponent", "mps_to_osil --free", mps("BOUNDS\n UP B x 1e999999\n"), "line 8: 1e999999 has too many digits, or too great an exponent"),
    ("many digits", "mps_to_osil --free", mps(" y r " + "1" * 500 + "\n"), "line 7: 1111111111111111111111111111111111111111 has too many digits"),
    ("wide range", "mps_to_osil --free", mps("RHS\n R r 10000000000000000000\nRANGES\n R r 0.00000000000000000000000000001\n"), "the row r: "),
    ("infinite fix", "mps_to_osil --free", mps("BOUNDS\n FX B x 1e30\n"), "line 8: a lower end is infinite"),
    ("infinite side", "mps_to_osil --free", mps("RHS\n R r -1e30\n"), "the row r: an upper end is minus infinity"),
    ("range of the goal", "mps_to_osil --free", mps("RANGES\n R c 1\n"), "line 8: the row c has the kind N"),
    ("sense", "mps_to_osil --free", "NAME\nOBJSENSE\n UP\n", "line 3: 'UP' is neither MAX nor MIN"),
    ("marker", "mps_to_osil --free", mps(" m 'MARKER' 'SOSORG'\n"), "line 7: a marker is 'INTORG' or 'INTEND'"),
    ("words", "mps_to_osil --free", mps(" y r 1 c\n"), "line 7: there should be a name and one or two pairs"),
    ("free as fixed", "mps_to_osil", mps(" longname veryLongRow 1\n"), "is it free MPS"),
    ("tab", "mps_to_osil", "NAME\nROWS\n\tN\tc\n", "line 3: a tab stands there"),
    ("long number", "mps_to_osil", "NAME\nROWS\n N  c\nCOLUMNS\n    x         c         123456789.1234567\n", "line 5: column 37 is between the fields"),
    ("1,001 variables", "mps_to_osil --free", "NAME\nROWS\n N c\n L r\nCOLUMNS\n" + lines_of(1001) + "ENDATA\n", "too big: 1,001 variables, and 1,000 are the most"),
    ("1,001 rows", "mps_to_osil --free", mps("", " N c\n L r\n" + "".join(f" L q{k}\n" for k in range(1000))), "too big: 1,001 rows"),
    ("bytes", "mps_to_osil", b"NAME\xff\n", "no text: byte 5 isn't UTF-8"),
    ("a zero byte", "mps_to_osil", b"NAME\nRO\0WS\n", "no text: line 2 has the character U+0000"),
    ("64 MB", "mps_to_osil", b" " * 64_000_001, "too big: it has more than 64,000,000 bytes"),
    ("MPS as LP", "lp_to_osil", mps(""), "it isn't CPLEX's LP format: line 1 begins with 'NAME'"),
    ("empty LP", "lp_to_osil", "\n", "nothing stands in it"),
    ("no rows", "lp_to_osil", "min\n x\nend\n", "Subject To comes behind the goal"),
    ("quadratic LP", "lp_to_osil", "min\n x + [ x ^ 2 ] / 2\nst\n c: x >= 1\nend\n", "line 2: [ begins what isn't linear"),
    ("product", "lp_to_osil", "min\n 3 * x\nst\n c: x >= 1\nend\n", "line 2: * begins what isn't linear"),
    ("indicator", "lp_to_osil", "min\n x\nst\n c: b = 1 -> x >= 1\nend\n", "line 4: an indicator (->)"),
    ("semi LP", "lp_to_osil", "min\n x\nst\n c: x >= 1\nSemi-Continuous\n x <= 4\nend\n", "line 6: names of variables stand there, and here is '<='"),
    ("lazy", "lp_to_osil", "min\n x\nst\n c: x >= 1\nLazy Constraints\n d: x >= 2\nend\n", "line 5: the section lazy constraints isn't read"),
    ("sets LP", "lp_to_osil", "min\n x\nst\n c: x >= 1\nSOS\n s: S1:: x:1\nend\n", "line 5: the section sos isn't read"),
    ("no relation", "lp_to_osil", "min\n x\nst\n c: x + 2 y\nend\n", "line 4: <=, >= or = should stand there, and here is the end"),
    ("no side", "lp_to_osil", "min\n x\nst\n c: x >= y\nend\n", "line 4: a number should stand there, and here is 'y'"),
    ("both down", "lp_to_osil", "min\n x\nst\n c: 1 <= x >= 2\nend\n", "line 4: of two ends one is a lower and one an upper one"),
    ("empty row", "lp_to_osil", "min\n x\nst\n c: >= 2\nend\n", "line 4: a row has no variable"),
    ("lost sign", "lp_to_osil", "min\n x +\nst\n c: x >= 2\nend\n", "line 2: a sign stands before nothing"),
    ("second LP row", "lp_to_osil", "min\n x\nst\n c: x >= 2\n c: x <= 5\nend\n", "line 5: a second row c"),
    ("behind End", "lp_to_osil", "min\n x\nst\n c: x >= 2\nend\nbounds\n", "line 6: something stands behind End"),
    ("a goal without a name", "lp_to_osil", SEVERAL.format("x + y"), "line 2: each of several goals begins with its name and a colon, and here is 'x'"),
    ("several goals of which none is", "lp_to_osil", SEVERAL.format(""), "it has no goal, and several are announced"),
    ("a goal's own words", "lp_to_osil", SEVERAL.format("a: Colour=1 x"), "line 2: colour is nothing that a goal says of itself"),
    ("a goal's missing number", "lp_to_osil", SEVERAL.format("a: Weight=inf x"), "line 2: a number should stand there, and here is 'inf'"),
    ("a goal that may be missed", "lp_to_osil", SEVERAL.format("a: RelTol=0.05 x"), "line 2: the goal a may be missed by 0.05 (reltol), and goals are exact here"),
    ("goals that don't end", "lp_to_osil", SEVERAL.format("a: x y"), "line 2: 'y' doesn't go on with the goal a"),
    ("nine goals", "lp_to_osil", SEVERAL.format(" ".join(f"g{k}: Priority={k} x" for k in range(9))), "too big: 9 goals, and 8 are the most"),
    ("wide LP", "lp_to_osil", "min\n 1e39 x\nst\n c: x >= 2\nend\n", "line 2: 1E+39 passes 128 bits"),
    ("1,001 rows LP", "lp_to_osil", "min\n x\nst\n" + " x >= 1\n" * 1001 + "end\n", "too big: 1,001 rows"),
]  # fmt: skip


def is_one_line(text, name, wanted):
    return text.count("\n") == 1 and text.startswith(f"{name}: ") and wanted in text


def try_refusals(folder):
    """Each file is refused with one line that says why, and the output stays as it was."""
    for name, words, text, wanted in REFUSED:
        file, out = written(folder, "bad", text), written(folder, "kept", "before")
        command, *flags = words.split()
        made = tool(command, *flags, file, out)
        with open(out, encoding="utf-8") as it:
            kept = it.read()
        check(made.returncode == 1 and is_one_line(made.stderr, command, wanted), name, f"{made.returncode}: {made.stderr}, wanted {wanted}")
        check(made.stdout == "" and kept == "before" and len(os.listdir(folder)) == 2, name, "something was written")


def try_files(folder):
    """What can't be read or written ends with 3 or 4, wrong words with 2."""
    good = written(folder, "good", "NAME\nROWS\n N  c\nCOLUMNS\n    x         c         1\nENDATA\n")
    good_lp = written(folder, "good.lp", "min\n x\nst\n c: x >= 1\nend\n")
    osil = f"{TOOLS}/../examples/diet.osil"
    for command, file in (("mps_to_osil", good), ("lp_to_osil", good_lp)):
        check(tool(command, file).returncode == 0, command, "refuses what is good")
        for words, status, wanted in (
            (["nowhere"], 3, "no such file"), ([folder], 3, "is a directory"), ([file, f"{folder}/none/out"], 4, "no such file"),
            ([file, folder], 4, "is a directory"), ([], 2, "usage"), ([file, "a", "b"], 2, "usage"), ([file, "--no"], 2, "usage"),
        ):  # fmt: skip
            made = tool(command, *words)
            said = made.stderr.startswith("usage: ") if status == 2 else is_one_line(made.stderr, command, wanted)
            check(made.returncode == status and said and not made.stdout, f"{command} {words}", f"{made.returncode}: {made.stderr}")
        with open("/dev/full", "wb") as full:
            made = subprocess.run([sys.executable, f"{TOOLS}/{command}", file], stdout=full, stderr=subprocess.PIPE, text=True, check=False)
        check(made.returncode == 4 and is_one_line(made.stderr, command, "no space left"), f"{command} on a full disk", made.stderr)
        check(sorted(os.listdir(folder)) == ["good", "good.lp"], command, f"left files: {os.listdir(folder)}")
    for words, status, wanted in (
        (["nowhere", osil], 3, "no such file"), ([osil, "nowhere"], 3, "no such file"), ([osil, osil], 1, "its root is osil, not osrl"),
        ([good, osil], 1, "it isn't OSiL: line 1"), ([osil, good], 1, "it isn't OSrL: line 1"), ([osil], 2, "usage"),
        ([osil, f"{TOOLS}/../examples/knapsack.osrl"], 1, "it isn't a result of this instance: its point has 6 numbers, and there are 4"),
        ([osil, f"{TOOLS}/../examples/cutting_stock.osrl", "--dot"], 1, ""),
    ):  # fmt: skip
        made = tool("show_result", *words)
        said = made.stderr.startswith("usage: ") if status == 2 else is_one_line(made.stderr, "show_result", wanted)
        check(made.returncode == status and said and not made.stdout, f"show_result {words}", f"{made.returncode}: {made.stderr}")


# Results


def shown_table(text, title):
    """The cells of a table by its first column; columns stand at least two spaces apart."""
    lines = text.split("\n" + title, 1)[1].split("\n\n")[0].splitlines()[1:]
    return {cells[0]: cells[1:] for cells in (re.split(r"  +", line.strip()) for line in lines[1:])}


def glpk_solution(text, kind):
    """Activities and marginals of rows or columns in a solution that glpsol wrote."""
    part = text.split("Column name")[0] if kind == "row" else text.split("Column name")[1]
    found = re.findall(r"^ +\d+ (\S+) +(?:B|NL|NU|NS|NF|\*)? +(\S+)(.*)$", part, re.M)
    return {name: (float(activity), rest.split()) for name, activity, rest in found}


def try_values(folder):
    """Values and multipliers that are shown are the activities and marginals that glpsol finds."""
    file, osil, osrl = f"{EXAMPLES}/plan.mps", f"{folder}/osil", f"{folder}/osrl"
    tool("mps_to_osil", file, osil)
    written(folder, "osrl", ran([PROGRAM, "solve", osil]).stdout)
    ran(["glpsol", "--mps", file, "-o", f"{folder}/solution"])
    with open(f"{folder}/solution", encoding="utf-8") as it:
        solution = it.read()
    text = tool("show_result", osil, osrl).stdout
    value = float(re.search(r"The least VALUE is (\d+\.\d+)", text).group(1))
    check(abs(value - float(re.search(r"VALUE = (\S+)", solution).group(1))) < 1e-6, "show_result", "another value than GLPK's")
    for name, (activity, _) in glpk_solution(solution, "column").items():
        cell = shown_table(text, "Variables")[name][0]
        check(abs(float(cell.rstrip(".")) - activity) <= 1e-5 * max(1, abs(activity)), "show_result", f"{name} is {cell}, and GLPK says {activity}")
    binding = shown_table(text, "Rows that bind")
    for name, (activity, rest) in glpk_solution(solution, "row").items():
        marginal = next((float(word) for word in rest[-1:] if word not in ("eps", "=") and len(rest) > 1), 0.0)
        is_bound = name in binding
        check(is_bound == bool(re.search(rf"{name} +(NL|NU|NS)", solution)), "show_result", f"{name} binds, or not, otherwise than GLPK says")
        if is_bound:
            multiplier = [float(cell.rstrip(".")) for cell in binding[name] if re.fullmatch(r"-?\d+\.?\d*\.{0,2}", cell)][-1]
            check(abs(multiplier - marginal) <= 1e-4 * max(1, abs(marginal)), "show_result", f"{name} has {multiplier}, and GLPK says {marginal}")


# example, what has to stand in the text: from the example's own description and from the rules
SHOWN = {
    "diet": ["diet: optimal", "The least cost is 2.007272727272.., exactly 552/275.", "4.727272727272..  52/11", "Rows that bind: 1 of 3", "3/2750"],
    "capital_budget": ["The greatest worth is 42.", "Tree of cases: 13 nodes", "plant >= 1: no point", "Rows that bind: 1 of 1"],
    "infeasible_schedule": ["infeasible schedule: infeasible", "0 >= 2", "row 6"],
    "unlimited_trade": ["unlimited_trade: unbounded", "One step changes profit by 2."],
    "knapsack": ["The greatest worth is 30."],
    "transport": ["transport: optimal", "153.675"],
    "cutting_stock": ["bestSoFar", "453"],
}


class Balanced(html.parser.HTMLParser):
    """Whether each element of a page is closed, and the names of all."""

    def __init__(self):
        super().__init__()
        self.open, self.names, self.is_balanced, self.text = [], set(), True, ""

    def handle_starttag(self, tag, attrs):
        self.names.add(tag)
        if tag != "meta":
            self.open.append(tag)

    def handle_endtag(self, tag):
        self.is_balanced &= bool(self.open) and self.open.pop() == tag

    def handle_data(self, data):
        self.text += data


def try_views(folder):
    """Text, HTML and Graphviz of the examples, and of results that end with a cause, an error, or no claim."""
    for name, wanted in SHOWN.items():
        files = [f"{TOOLS}/../examples/{name}.{end}" for end in ("osil", "osrl")]
        text, page = tool("show_result", *files).stdout, tool("show_result", *files, "--html").stdout
        check(all(piece in text for piece in wanted), f"show_result {name}", text)
        parser = Balanced()
        parser.feed(page)
        check(parser.is_balanced and not parser.open and not parser.names & {"script", "iframe", "link"}, f"page of {name}", str(parser.open))
        instance = job_documents.instance_of(files[0])
        check(all(v.name in parser.text for v in instance.variables) or name == "infeasible_schedule", f"page of {name}", "a variable is wanting")
    try_tree(folder)
    try_levels(folder)
    try_bounds(folder)
    few = written(folder, "few.osol", '<osol><optimization><solverOptions><solverOption name="nodeLimit" value="2"/></solverOptions></optimization></osol>')
    osil = f"{TOOLS}/../examples/capital_budget.osil"
    osrl = written(folder, "osrl", ran([PROGRAM, "solve", osil, "--options", few]).stdout)
    wanted = "the cause nodeLimit 2: it began as many cases as the option nodeLimit allows; give a greater limit"
    check(wanted in tool("show_result", osil, osrl).stdout, "a cause")
    bad = written(folder, "bad.osil", "<osil><instanceData><variables><var ub='x'/></variables></instanceData></osil>")
    osrl = written(folder, "osrl", ran([PROGRAM, "solve", bad]).stdout)
    check("The server refused it: osil Number at 4." in tool("show_result", osil, osrl).stdout, "an error's document")
    name = written(folder, "name.osil", "<osil><instanceData><variables><var name='a&#x9b;31m&#10;b'/></variables></instanceData></osil>")
    osrl = written(folder, "osrl", ran([PROGRAM, "solve", name]).stdout)
    check("\n  a?31m?b " in tool("show_result", name, osrl).stdout, "a name that would move the cursor")
    job = "<osrl><general><generalStatus type='normal'/></general><job><status>running</status></job></osrl>"
    check("The job is running; there is no claim" in tool("show_result", osil, written(folder, "osrl", job)).stdout, "a document without a claim")


def try_levels(folder):
    """Several objectives with a variable that may be 0 besides, and a row that is rounded: each tree is shown by its own objective."""
    rows = "<start><el>0</el><el>1</el></start><colIdx><el>0</el></colIdx><value><el>{}</el></value>"
    form = (
        "<osil><instanceData><variables>{}</variables><objectives>{}</objectives><constraints>{}</constraints>"
        "<linearConstraintCoefficients>{}</linearConstraintCoefficients></instanceData></osil>"
    )
    cost, worth = '<obj name="cost"><coef idx="0">1</coef></obj>', '<obj maxOrMin="max" name="worth"><coef idx="0">1</coef><coef idx="1">1</coef></obj>'
    lots = '<var type="D" lb="2" ub="5" name="lot"/><var ub="3" name="rest"/>'
    osil = written(folder, "levels.osil", form.format(lots, cost + worth, '<con lb="1"/>', rows.format(1)))
    text = tool("show_result", osil, written(folder, "osrl", ran([PROGRAM, "solve", osil]).stdout)).stdout
    for piece in (
        "The least cost is 2.\nAmong the points that reach this, the greatest worth is 5.",
        "2 to 5, or 0",
        "Tree of cases of the cost: 3 nodes\n  1  split by lot into 0 and its own ends",
        "  lot = 0: no point: lot, row 0 can't hold together",
        "  lot within its own ends: no better than 2",
        "Tree of cases of the worth: 1 nodes\n  1  no better than 5",
    ):
        check(piece in text, "several objectives", text)
    best = '<obj maxOrMin="max"><coef idx="0">1</coef></obj>'
    osil = written(folder, "rounds.osil", form.format('<var type="I"/>', best, '<con ub="5"/>', rows.format(2)))
    few = '<osol><optimization><solverOptions><solverOption name="rounds" value="1"/></solverOptions></optimization></osol>'
    made = ran([PROGRAM, "solve", osil, "--options", written(folder, "rounds.osol", few)]).stdout
    text = tool("show_result", osil, written(folder, "osrl", made)).stdout
    check("The greatest value is 2." in text and "Rows that were rounded: 1; each holds at every feasible point." in text, "a row that is rounded", text)


def try_bounds(folder):
    """What a search left that ended early: how good a point can be at most, and how far the best one so far is from that."""
    best = '<obj maxOrMin="max"><coef idx="0">1</coef></obj>'
    rows = '<constraints><con ub="5"/></constraints><linearConstraintCoefficients><start><el>0</el><el>1</el></start><colIdx><el>0</el></colIdx><value><el>2</el></value>'
    front = f'<osil><instanceData><variables><var type="I" name="lots"/></variables><objectives>{best}</objectives>'
    osil = written(folder, "halves.osil", f"{front}{rows}</linearConstraintCoefficients></instanceData></osil>")

    def left(status, *parts):
        held = "".join(f'<otherSolutionResult name="os_cert.{name}">{"".join(f"<item>{item}</item>" for item in items)}</otherSolutionResult>' for name, *items in parts)
        solution = f'<solution><status type="{status}"/><otherSolutionResults>{held}</otherSolutionResults></solution>'
        general = '<general><generalStatus type="normal"/></general><job><status>finished</status></job>'
        return written(folder, "osrl", f"<osrl>{general}<optimization>{solution}</optimization></osrl>")

    found, ended, tree = [("point", 2), ("value", 2)], ("cause", "killed"), ("tree", "split 0 2", "bound 0:-1", "bound 1:-1/2")
    by_row = ("tree", "split 1 4", "bound 1:-1/2", "bound 1:-1/2")
    for status, parts, wanted in (
        ("bestSoFar", [*found, ended, ("bound", "5/2"), tree], "No point's value is above 2.5; so the best one is at most 0.5 better than that of this point.\n"),
        ("bestSoFar", [*found, ended, ("bound", 2), tree], "No point's value is above 2; so none is better than that of this point.\n"),
        ("unsure", [ended, ("bound", "7/3"), tree], "No point's value is above 2.333333333333.., exactly 7/3.\n"),
        ("unsure", [ended, ("bound", "5/2"), tree], "Tree of cases: 3 nodes\n"),
        ("unsure", [ended, ("bound", "5/2"), by_row], "  1  split by row 0\n"),
        ("unsure", [ended, ("bound", "5/2"), by_row], "  row 0 <= 4: no better than 2\n"),
        ("unsure", [ended, ("bound", "5/2"), by_row], "  row 0 >= 5: no better than 2.5\n"),
    ):
        text = tool("show_result", osil, left(status, *parts)).stdout
        check(wanted in text, f"a bound of {status}", text)
    text = tool("show_result", osil, left("unsure", ended, tree)).stdout
    check("Tree" not in text and "above" not in text, "a tree without a bound", text)
    made = tool("show_result", osil, left("unsure", ended, ("bound", "5/2")))
    check(made.returncode != 0 and is_one_line(made.stderr, "show_result", "its bound has 1 numbers and 0 nodes"), "a bound without a tree", made.stderr)


def try_tree(folder):
    """A tree of many cases: each node stands once in the picture and in Graphviz's reading of it, and each leaf's bound is no worse than the
    value, within the ends of its case; a tree without an end of words is as deep as its splits."""
    files = [f"{TOOLS}/../examples/capital_budget.osil", f"{TOOLS}/../examples/capital_budget.osrl"]
    text, dot = tool("show_result", *files).stdout, tool("show_result", *files, "--dot").stdout
    numbers = [int(number) for number in re.findall(r"^ [ │├└─]*(\d+)  ", text, re.M)]
    check(numbers == list(range(1, 14)), "tree", f"the picture has the nodes {numbers}")
    check(all(float(bound) <= 42 for bound in re.findall(r"no better than ([\d.]+)", text)), "tree", text)
    svg = ran(["dot", "-Tsvg"], input=dot)
    check(svg.returncode == 0 and svg.stdout.count('class="node"') == 13 and svg.stdout.count('class="edge"') == 12, "dot", svg.stderr)
    deep = "".join(f"<item>split 0 {k}</item><item>farkas 0:1</item>" for k in range(3000)) + "<item>farkas 0:1</item>"
    osrl = (
        '<osrl><general><generalStatus type="normal"/></general><job><status>finished</status></job><optimization><solution><status type="infeasible"/>'
        f'<otherSolutionResults><otherSolutionResult name="os_cert.tree">{deep}</otherSolutionResult></otherSolutionResults></solution></optimization></osrl>'
    )
    made = tool("show_result", files[0], written(folder, "osrl", osrl), "--all")
    check(made.returncode == 0 and "Tree of cases: 6001 nodes" in made.stdout and "(3000 deep)" in made.stdout, "a deep tree", made.stderr[-300:])
    cut = tool("show_result", files[0], f"{folder}/osrl").stdout
    check(".. and 5,801 more; --all shows them" in cut, "a long tree", cut[-300:])


# Jobs


def call(name, port, *words):
    return ran([PROGRAM, "call", name, "127.0.0.1", str(port), *words]).stdout


def knocked(port):
    """The states that `os call knock` tells."""
    return dict(re.findall(r'jobID="([^"]*)"><state>(\w+)', call("knock", port)))


def watched(text):
    return dict(re.findall(r"^(os-\d+) +(\w+)", text, re.M))


def long_work():
    """A program whose search takes longer than this script waits: four rows of even numbers whose sum is to be odd, over 60 variables of 0 or 1."""
    variables = [(0, 1, True)] * 60
    rows = [(2 * k + 1, 2 * k + 1, {j: 2 * (1 + (j * (k + 3) + k) % 7) for j in range(60)}) for k in range(40, 44)]
    return programs.Program("long", True, variables, rows, [1 + j % 5 for j in range(60)])


def send_jobs(server, folder):
    """Three numbers: the first job runs, the second waits, the third is issued."""
    osil = written(folder, "long.osil", programs.osil(long_work()))
    most = "".join(f'<solverOption name="{name}" value="{limit}"/>' for name, limit in (("nodeLimit", 1_000_000), ("pivotLimit", 100_000_000)))
    most = f"<optimization><solverOptions>{most}</solverOptions></optimization>"
    files = []
    for number in (1, 2, 3):
        check(call("getJobID", server.port) == f"os-{number}", "getJobID")
        files.append(written(folder, f"{number}.osol", f"<osol><general><jobID>os-{number}</jobID></general>{most}</osol>"))
    for file in files[:2]:
        check(call("send", server.port, "--osil", osil, "--osol", file) == "true", "send")
    return files


class Terminal:
    """A run of `watch_jobs` on a terminal, and what it has written."""

    def __init__(self, port):
        self.handle, end = pty.openpty()
        fcntl.ioctl(end, termios.TIOCSWINSZ, struct.pack("HHHH", 40, 120, 0, 0))
        self.process = subprocess.Popen([sys.executable, f"{TOOLS}/watch_jobs", "127.0.0.1", port], stdout=end, stderr=end)
        os.close(end)
        self.text = ""

    def shows(self, wanted, seconds=60):
        """Whether a view matches within so many seconds."""
        last = time.monotonic() + seconds
        while time.monotonic() < last:
            if select.select([self.handle], [], [], 0.1)[0]:
                self.text += os.read(self.handle, 65536).decode()
            views = [view.replace("\033[K", "").replace("\r", "") for view in self.text.split("\033[H") if view.endswith("\033[J")]
            if any(re.search(wanted, view) for view in views[-1:]):
                return True
        return False


def try_watch(folder):
    """The view of a server whose jobs run for some seconds, once, on a terminal, and as lines, through its end; and what else a client is told meanwhile."""
    with serving.Server(1, 4) as server:
        port = str(server.port)
        view = tool("watch_jobs", "127.0.0.1", port, "--once")
        check(view.returncode == 0 and "idle; 0 wait or run; 0 numbers given; no jobs" in view.stdout, "watch_jobs of no jobs", view.stdout + view.stderr)
        files = send_jobs(server, folder)
        time.sleep(0.5)
        view, states = tool("watch_jobs", "127.0.0.1", port, "--once").stdout, knocked(server.port)
        check(states == {"os-1": "running", "os-2": "waiting", "os-3": "issued"}, "knock", str(states))
        check(watched(view) == states and "busy; 2 wait or run; 3 numbers given" in view, "watch_jobs --once", view)
        told = call("retrieve", server.port, "--osol", files[0])
        check("<status>running</status>" in told and "<optimization>" not in told, "retrieve of a job that runs", told)
        check(call("send", server.port, "--osil", f"{folder}/long.osil", "--osol", files[0]) == "false", "send to a job that runs")
        lines = subprocess.Popen([sys.executable, f"{TOOLS}/watch_jobs", "127.0.0.1", port], stdout=subprocess.PIPE, text=True)
        terminal = Terminal(port)
        for wanted in (r"os-1 +running +[01] s", r"os-1 +running +[2-9] s +[2-9] s\nos-2 +waiting .*\nos-3 +issued"):
            check(terminal.shows(wanted), "watch_jobs on a terminal", terminal.text[-300:])
        check("os-1  running" in lines.stdout.readline() + "".join(lines.stdout.readline() for _ in range(4)), "watch_jobs in lines")
        for file in reversed(files):  # the first one last, so that none is begun
            call("kill", server.port, "--osol", file)
        wanted = r"idle; 0 wait or run; 3 .*\n.*\nos-3 +killed .*\nos-2 +killed .*\nos-1 +finished +\d+ s +[0-9] s"
        check(terminal.shows(wanted), "watch_jobs behind kills", terminal.text[-300:])
        check(knocked(server.port) == {"os-1": "finished", "os-2": "killed", "os-3": "killed"}, "knock behind kills")
        told = call("retrieve", server.port, "--osol", files[0])
        check('"os_cert.cause"><item>killed</item>' in told, "retrieve behind a kill", told)
    check(terminal.shows(r"no server \(connection refused\); asking again every second"), "watch_jobs of a server that is gone", terminal.text[-300:])
    time.sleep(1.5)
    terminal.process.send_signal(signal.SIGINT)
    check(terminal.process.wait(20) == 0 and "Traceback" not in terminal.text, "watch_jobs behind Ctrl-C")
    lines.send_signal(signal.SIGINT)
    told = lines.communicate(timeout=20)[0]
    check(lines.returncode == 0 and 1 <= told.count("asking again") <= 2 and told.endswith("asking again every second\n"), "watch_jobs in lines", told)
    gone = tool("watch_jobs", "127.0.0.1", port, "--once")
    check(gone.returncode == 6 and is_one_line(gone.stderr, "watch_jobs", "no server answers"), "watch_jobs --once of nobody", gone.stderr)
    for words in ([], ["h"], ["h", "x"], ["h", "65536"], ["h", "80", "--all"]):
        check(tool("watch_jobs", *words).returncode == 2, f"watch_jobs {words}")


def try_other_servers():
    """What answers is no server of jobs: HTTP of another kind, and bytes that are no HTTP."""
    with serving.Server(0, 1) as server:
        pass
    hello = f"import socket\ns = socket.create_server(('127.0.0.1', {server.port}))\nwhile 1: a = s.accept()[0]; a.recv(999); a.sendall(b'hello\\n'); a.close()"
    for words, wanted in (
        ([sys.executable, "-m", "http.server", str(server.port), "--bind", "127.0.0.1"], "has the status 501"),
        ([sys.executable, "-c", hello], "no HTTP"),
    ):
        other = subprocess.Popen(words, stdout=subprocess.DEVNULL, stderr=subprocess.DEVNULL)
        for _ in range(50):
            made = tool("watch_jobs", "127.0.0.1", str(server.port), "--once")
            if made.returncode != 6:
                break
            time.sleep(0.1)
        other.terminate()
        other.wait()
        check(made.returncode == 7 and is_one_line(made.stderr, "watch_jobs", wanted), f"watch_jobs of {words[1:3]}", f"{made.returncode} {made.stderr}")


def main():
    for work in (try_refusals, try_files, try_examples, try_values, try_views, try_watch):
        with tempfile.TemporaryDirectory() as folder:
            work(folder)
    for case in CONVERTED:
        with tempfile.TemporaryDirectory() as folder:
            try_case(folder, *case)
    try_input()
    try_data()
    try_published()
    try_other_servers()
    print("\n".join([*failures, f"{tried[0] - len(failures)} passed, {len(failures)} failed"]))
    return bool(failures)


sys.exit(main())
