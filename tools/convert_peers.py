"""Converts GLPK's own examples to OSiL, solves them, and compares with what GLPK reads and finds.

Of each example a row of the table: its size, how the search ended, its value and GLPK's, the nodes of its tree, and the processor seconds
of both. What `glpsol` reads in each file, MPS or LP, is compared with the OSiL field by field; a solved value has to be GLPK's within
1e-6 of it, and `os check` has to accept the certificate. A model is translated by `glpsol`: the table has its free MPS, and its fixed MPS
and its LP are converted and compared too.
"""

import concurrent.futures
import glob
import os
import re
import shutil
import subprocess
import sys
import tempfile

sys.dont_write_bytecode = True
sys.path.insert(0, os.path.dirname(os.path.abspath(__file__)))

import glpk_reading
import job_documents
import serving

EXAMPLES = "/usr/share/doc/glpk-utils/examples"
PROGRAM = serving.PROGRAM
TOOLS = os.path.dirname(os.path.abspath(__file__))
LIMIT = 20  # processor seconds of each solver
NEAR = 1e-6
PROFITS = ("icecream.mps", "murtagh.mps")  # their goal is a profit, and MPS of their time says no sense
# the name of a file's end, words of the tool, words of glpsol
DIALECTS = {"fmps": ("mps_to_osil", ["--free"], "--freemps"), "mps": ("mps_to_osil", [], "--mps"), "lp": ("lp_to_osil", [], "--lp")}


def run(words, out):
    """The status, the processor seconds and the output of a run, which is ended past the limit."""
    limited = ["sh", "-c", f'ulimit -t {LIMIT}; exec "$@"', "sh", *words]
    with open(out, "w+b") as it:
        process = subprocess.Popen(limited, stdin=subprocess.DEVNULL, stdout=it, stderr=subprocess.STDOUT, cwd=EXAMPLES)
        _, status, usage = os.wait4(process.pid, 0)
        process.returncode = status
        it.seek(0)
        text = it.read().decode(errors="replace")
    return os.waitstatus_to_exitcode(status), usage.ru_utime + usage.ru_stime, text


class Example:
    """An example with its table row, and what is wrong with it."""

    def __init__(self, name, words, sense="min"):
        self.name, self.words, self.sense, self.cells, self.wrong, self.end = name, words, sense, {}, [], ""

    def is_model(self):
        return "-m" in self.words

    def translate(self, folder):
        """The files to convert: of a model its translations, of another example itself."""
        if not self.is_model():
            return {self.name.rsplit(".", 1)[1]: f"{EXAMPLES}/{self.name}"}, self.sense
        outs = {end: f"{folder}/model.{end}" for end in DIALECTS}
        writes = ["--wfreemps", outs["fmps"], "--wmps", outs["mps"], "--wlp", outs["lp"]]
        status, _, text = run(["glpsol", *self.words, "--check", *writes], f"{folder}/translated")
        if status != 0:
            self.end = f"GLPK makes no file of it within {LIMIT} s" if status < 0 else f"GLPK makes no file of it: {text.strip()[-60:]}"
            return {}, "min"
        with open(outs["lp"], encoding="utf-8") as it:
            return outs, "max" if re.search("^Maximize", it.read(), re.M) else "min"

    def convert(self, end, file, sense, folder):
        """Makes OSiL of a file, compares it with GLPK's reading, and gives the OSiL's path, or none."""
        tool, flags, dialect = DIALECTS[end]
        words = [f"{TOOLS}/{tool}", *flags]
        if tool == "mps_to_osil":
            words += ["--glpk"] * self.is_model() + ["--max"] * (sense == "max")
        out = f"{folder}/{end}.osil"
        status, _, text = run([*words, file, out], f"{folder}/converted")
        reading = glpk_reading.read_by_glpk(file, [f"--{sense}", dialect], folder)
        if status != 0:
            refused = " too big: " in text or isinstance(reading, str)
            if status != 1 or not refused or os.path.exists(out):
                self.wrong.append(f"{end}: {tool} ended with {status}: {text.strip()}")
            self.end = self.end or re.sub(r"^.*it is ", "", text.strip())
            return None
        if isinstance(reading, str):
            self.wrong.append(f"{end}: GLPK doesn't read it: {reading}")
        else:
            self.wrong += [f"{end}: {difference}" for difference in glpk_reading.differences(out, reading)[:3]]
        return out

    def solve(self, osil, folder):
        """How the search ends, and its value."""
        status, seconds, _ = run([PROGRAM, "solve", osil], f"{folder}/osrl")
        self.cells["seconds"] = f"{seconds:.2f}"
        if status < 0:
            self.end, self.cells["seconds"] = f"longer than {LIMIT} s", f"> {LIMIT}"
            return None
        instance = job_documents.instance_of(osil)
        result = job_documents.result_of(f"{folder}/osrl", instance)
        self.end = result.claim if not result.cause else f"{result.claim}: {result.cause}"
        self.cells["nodes"] = str(len(result.nodes) or "")
        if result.claim != "unsure":
            _, _, answer = run([PROGRAM, "check", osil, f"{folder}/osrl"], f"{folder}/checked")
            if answer != f"accepted {result.claim}\n":
                self.wrong.append(f"check says {answer.strip()}")
        return result

    def compare(self, result, file, dialect, sense, folder):
        """GLPK's end and value of the same file, and whether ours are these."""
        status, seconds, _ = run(["glpsol", f"--{sense}", dialect, file, "-o", f"{folder}/solution"], f"{folder}/solved")
        self.cells["theirs"] = f"{seconds:.2f}"
        if status < 0 or not os.path.exists(f"{folder}/solution"):
            self.cells["GLPK"], self.cells["theirs"] = "", f"> {LIMIT}"
            return
        with open(f"{folder}/solution", encoding="utf-8") as it:
            text = it.read()
        with open(f"{folder}/solved", encoding="utf-8") as it:
            said = it.read()
        state, value = re.search(r"^Status: +(.*)$", text, re.M).group(1), float(re.search(r"^Objective: .* = (\S+)", text, re.M).group(1))
        is_optimal = "OPTIMAL" in state
        self.cells["GLPK"] = f"{value:.10g}" if is_optimal else state.lower()
        if result and result.claim == "optimal":
            if not is_optimal or abs(value - result.value) > NEAR * max(1, abs(value)):
                self.wrong.append(f"the value is {float(result.value):.10g}, and GLPK says {state} {value:.10g}")
        elif result and result.claim in ("infeasible", "unbounded"):
            other = {"infeasible": "NO PRIMAL FEASIBLE|NO INTEGER FEASIBLE|NO FEASIBLE", "unbounded": "NO DUAL FEASIBLE|UNBOUNDED"}[result.claim]
            if is_optimal or not re.search(other, said):
                self.wrong.append(f"it is {result.claim}, and GLPK says {state}")

    def tried(self):
        with tempfile.TemporaryDirectory() as folder:
            files, sense = self.translate(folder)
            made = {end: self.convert(end, file, sense, folder) for end, file in files.items()}
            first = next(iter(made), None)
            if first and made[first]:
                instance = job_documents.instance_of(made[first])
                values = sum(len(row) for row in instance.factors)
                self.cells |= {"variables": str(len(instance.variables)), "rows": str(len(instance.rows)), "values": str(values)}
                self.cells["whole"] = str(sum(v.whole for v in instance.variables) or "")
                result = self.solve(made[first], folder)
                self.cells["value"] = f"{float(result.value):.10g}" if result and result.value is not None else ""
                self.compare(result, files[first], DIALECTS[first][2], sense, folder)
        return self


def examples():
    """GLPK's examples: MPS and LP files, and models, some with data in another file."""
    data = {"misp.mod": ["misp1.dat", "misp2.dat"], "sudoku.mod": [None, "sudoku.dat"]}
    for path in sorted(glob.glob(f"{EXAMPLES}/*.mps") + glob.glob(f"{EXAMPLES}/*.lp")):
        name = os.path.basename(path)
        yield Example(name, [], "max" if name in PROFITS else "min")
    for path in sorted(glob.glob(f"{EXAMPLES}/*.mod")):
        name = os.path.basename(path)
        for file in data.get(name, [None]):
            yield Example(name if file is None else f"{name}, {file}", ["-m", path] + (["-d", f"{EXAMPLES}/{file}"] if file else []))


def main():
    if not shutil.which("glpsol") or not glob.glob(f"{EXAMPLES}/*.mod"):
        sys.exit("glpk-utils, with its examples, is wanting: bash tools/convert_peers.sh installs it")
    head = ("variables", "whole", "rows", "values", "nodes", "value", "GLPK", "seconds", "theirs")
    print("| example | variables | whole | rows | values | ends | nodes | value | GLPK's value | seconds | GLPK's |\n" + "|---" * 11 + "|")
    counts, wrong, tried, failed = {}, [], 0, 0
    with concurrent.futures.ThreadPoolExecutor(2) as pool:
        for it in pool.map(Example.tried, examples()):
            cells = [it.cells.get(name, "") for name in head]
            print("| " + " | ".join([it.name, *cells[:4], it.end, *cells[4:]]) + " |", flush=True)
            kind = re.sub(r"[\d,]+ (?=variables|rows|values)|(?<=nodeLimit|turnLimit) .*|(?<=wide) .*|(?<=file of it).*", "", it.end)
            counts[kind] = counts.get(kind, 0) + 1
            wrong += [f"{it.name}: {text}" for text in it.wrong]
            tried, failed = tried + 1, failed + bool(it.wrong)
    print("\n" + "\n".join(f"{count} {kind}" for kind, count in sorted(counts.items(), key=lambda item: -item[1])))
    print("\n".join(wrong) or "All values are GLPK's, all certificates are accepted, and GLPK reads the same in every file.")
    print(f"{tried - failed} passed, {failed} failed")
    return bool(wrong)


if __name__ == "__main__":
    sys.exit(main())
