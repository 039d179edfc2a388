"""The driver for AMPL's .nl and .sol files: what `clients/ampl/gubnatris_ampl` runs.

    gubnatris_ampl STUB[.nl] [-AMPL] [KEY=VALUE ..]

Further words come from the environment, in NAME_options, NAME being that of the driver. With -AMPL the answer is written to STUB.sol.
"""

from __future__ import annotations

import os
import signal
import sys
from dataclasses import dataclass, field
from decimal import Decimal, InvalidOperation
from fractions import Fraction
from pathlib import Path
from typing import Optional

from .errors import BadModel, Error, TimedOut
from .exact import fraction_of
from .limits import MOST_DOCUMENT
from .model import Model
from .nl import BadFile, NlProgram, read_nl
from .options import MOST_NODES, MOST_TURNS, Gap
from .program import solver
from .results import Result

MOST_FILE = 64_000_000
KEYS = {
    "timelimit": "seconds after which the search ends with what it has found",
    "nodelimit": f"how many cases it may begin, 1 to {MOST_NODES:,} (which is the default)",
    "pivotlimit": f"how many turns of the simplex method it may make, 1 to {MOST_TURNS:,} (which is the default)",
    "rounds": "how many rounding cuts it may add, 0 to 100 (0)",
    "objno": "which goal counts, from 1; 0 is none (1)",
    "server": "URL of a server, in place of the program on this machine",
    "suffixes": "which suffixes come back, with commas between: rc, slack, bound, relmipgap",
    "outlev": "0 writes no message (1)",
    "wantsol": "1 writes STUB.sol without -AMPL too (0)",
    "mipgap": "the search ends where its point is as near to the bound as this part of its value; 0 is none (0)",
    "absmipgap": "the same, as a number in place of a part (0)",
    "fast": "only 0 is taken: each answer is computed in exact fractions",
}
ALIASES = {"timelim": "timelimit", "maxtime": "timelimit", "gap": "mipgap", "mip_gap": "mipgap", "mipgapabs": "absmipgap", "threads": "threads"}
LIMITED = ("nodeLimit", "turnLimit", "timeLimit", "killed", "length")
CODES = {"optimal": 0, "infeasible": 200, "unbounded": 300}
WITHIN_GAP, LIMIT, FAILURE = 3, 400, 500


class BadWords(Error):
    """The words that the driver was called with are none of its own."""


@dataclass
class Call:
    """What the driver is asked to do."""

    stub: str = ""
    is_ampl: bool = False
    values: dict[str, str] = field(default_factory=dict)

    def number(self, key: str, otherwise: Optional[int] = None) -> Optional[int]:
        text = self.values.get(key)
        if text is None:
            return otherwise
        if not text.isascii() or not text.isdigit() or len(text) > 12:
            raise BadWords(f"{key} is {text!r}, which is no count")
        return int(text)

    def seconds(self) -> Optional[float]:
        text = self.values.get("timelimit")
        try:
            found = None if text is None else float(text)
        except ValueError:
            found = -1.0
        if found is not None and not 0 <= found < 1e9:
            raise BadWords(f"timelimit is {text!r}, which is no number of seconds")
        return found

    def gap(self) -> Gap:
        """The gap at which the search ends, of the two that may be asked for. 0 is none: the search goes on to the optimum."""
        relative, absolute = (self._part(key) for key in ("mipgap", "absmipgap"))
        if relative and absolute:
            raise BadWords("mipgap and absmipgap are two gaps, and a search has one")
        return f"{100 * relative}%" if relative else absolute or None

    def _part(self, key: str) -> Fraction:
        text = self.values.get(key, "0")
        try:
            found = Decimal(text)
        except InvalidOperation:
            found = Decimal("NaN")
        if not found.is_finite() or found < 0:
            raise BadWords(f"{key} is {text[:40]!r}, which is no number from 0 on")
        return fraction_of(found, key)


@dataclass
class Answer:
    """What is written back: the message, the code, and what there is of duals, values and suffixes."""

    message: str
    code: int
    duals: list[Fraction] = field(default_factory=list)
    values: list[Fraction] = field(default_factory=list)
    suffixes: list[tuple[int, str, dict[int, Fraction]]] = field(default_factory=list)


def version() -> str:
    from importlib import metadata  # only where it is asked for: it takes as long to read as the whole package

    try:
        return metadata.version("gubnatris")
    except metadata.PackageNotFoundError:
        return "of a checkout"


def call_of(words: list[str]) -> Call:
    """What the words ask for. Raises `BadWords`."""
    call = Call()
    for word in words:
        key, equals, value = word.partition("=")
        if word == "-AMPL":
            call.is_ampl = True
        elif equals and call.stub:
            key = ALIASES.get(key.lower(), key.lower())
            if key not in KEYS and key != "threads":
                raise BadWords(f"there is no option {key[:40]!r}; there are {', '.join(KEYS)}")
            call.values[key] = value
        elif not call.stub and not word.startswith("-"):
            call.stub = word.removesuffix(".nl")
        else:
            raise BadWords(f"{word[:40]!r} is no option; options are KEY=VALUE, behind the file")
    if not call.stub:
        raise BadWords("no file is named")
    text = call.values.get("fast", "0")
    if text.strip("0.") not in ("", "no", "false"):
        raise BadWords(f"there is no fast yet, and fast={text} is refused: {KEYS['fast']}; timelimit or nodelimit end a search sooner")
    return call


def model_of(program: NlProgram, names: tuple[list[str], list[str]], goal: int) -> Model:
    """The model that a file says, with this goal, from 1, or none."""
    model, columns, rows = Model(), *names
    variables = [
        model.variable(columns[j] if columns else f"x{j}", ends.low, ends.high, whole=program.is_whole(j))
        for j, ends in enumerate(program.variable_ends)
    ]
    for i, ends in enumerate(program.row_ends):
        low, high = (None if end is None else end - program.constants[i] for end in ends)
        model.row([(variables[j], factor) for j, factor in program.factors[i].items()], low, high, rows[i] if rows else f"c{i}")
    if goal > len(program.goals) and (goal > 1 or program.goals):
        raise BadWords(f"objno is {goal}, and there are {len(program.goals)} goals")
    if goal and program.goals:
        found = program.goals[goal - 1]
        own = rows[program.rows + goal - 1] if len(rows) > program.rows + goal - 1 else ""
        (model.maximise if found.maximise else model.minimise)([(variables[j], cost) for j, cost in found.costs.items()], found.constant, own)
    return model


def read_names(stub: str, program: NlProgram) -> tuple[list[str], list[str]]:
    """The names of the variables and of the rows and goals, from the files beside, where they are there and have enough."""
    found = []
    for ending, count in ((".col", program.variables), (".row", program.rows)):
        lines: list[str] = []
        if program.has_names:
            try:
                lines = Path(stub + ending).read_bytes()[:MOST_DOCUMENT].decode("utf-8", "replace").splitlines()
            except OSError:
                pass  # the header may tell of names that nobody kept
        found.append(lines if len(lines) >= count else [])
    return found[0], found[1]


def answer_of(result: Result, program: NlProgram, asked: set[str]) -> Answer:
    """What a result is to AMPL."""
    cause = (result.cause or "").partition(" ")[0]
    code = CODES.get(result.status, WITHIN_GAP if cause == "gap" else LIMIT if cause in LIMITED else FAILURE)
    told = f"{result.status}{f', for {result.cause}' if result.cause else ''}"
    worth = ""
    if result.objective is not None:
        exactly = "" if result.objective.denominator == 1 else f", exactly {result.objective}"
        worth = f"; objective {float(result.objective):.15g}{exactly}"
    answer = Answer(f"Gubnatris: {told}{worth}", code)
    if result.status in ("optimal", "bestSoFar", "unbounded"):
        answer.values = list(result.values or ())
    answer.duals = list(result.duals or ())
    if "rc" in asked and result.reduced_costs:
        answer.suffixes.append((0, "rc", dict(enumerate(result.reduced_costs))))
    if "slack" in asked and result.slacks:
        answer.suffixes.append((1, "slack", {i: min(end for end in it if end is not None) for i, it in enumerate(result.slacks) if any(end is not None for end in it)}))
    for name, value in (("bound", result.bound), ("relmipgap", result.gap)):
        if name in asked and value is not None:
            answer.suffixes.append((2, name, {0: value}))
    return answer


def sol_text(answer: Answer, options: list[str], rows: int, variables: int) -> str:
    """A .sol file."""
    count = int(options[0]) if options and options[0].isdigit() else 0
    echoed = options[1 : 1 + count]
    lines = [answer.message, "", "Options", str(len(echoed)), *echoed]
    lines += [str(rows), str(len(answer.duals)), str(variables), str(len(answer.values))]
    lines += [_number(value) for value in answer.duals + answer.values]
    lines.append(f"objno 0 {answer.code}")
    for of, name, values in answer.suffixes:
        told = {k: value for k, value in values.items() if value}
        lines += [f"suffix {of | 4} {len(told)} {len(name) + 1} 0 0", name, *(f"{k} {_number(value)}" for k, value in told.items())]
    return "\n".join(lines) + "\n"


def _number(value: Fraction) -> str:
    return str(value) if value.denominator == 1 and abs(value) < 2**53 else repr(float(value))


def solve(call: Call) -> tuple[Answer, list[str], int, int]:
    """Reads a file and solves what it says."""
    path = Path(call.stub + ".nl")
    try:
        with open(path, "rb") as file:
            data = file.read(MOST_FILE + 1)
    except OSError as failure:
        raise BadFile(f"it can't be read: {failure.strerror}") from failure
    if len(data) > MOST_FILE:
        raise BadFile(f"it has more than {MOST_FILE:,} bytes")
    program = read_nl(data)
    goal = call.number("objno", 1) or 0
    model = model_of(program, read_names(call.stub, program), goal)
    asked = {suffix.name for suffix in program.suffixes} | {name for name in call.values.get("suffixes", "").split(",") if name}
    try:
        result = solver(call.values.get("server")).solve(
            model,
            node_limit=call.number("nodelimit", MOST_NODES),
            turn_limit=call.number("pivotlimit", MOST_TURNS),
            rounds=call.number("rounds"),
            seconds=call.seconds(),
            bound=not asked.isdisjoint(("bound", "relmipgap")),
            gap=call.gap(),
            start={j: Fraction(round(value)) if program.is_whole(j) else value for j, value in program.first.items()},
        )
        answer = answer_of(result, program, asked)
    except TimedOut as late:
        answer = Answer(f"Gubnatris: no result within the time: {late}", LIMIT)
    if len(program.goals) > 1:
        answer.message += f"\n{len(program.goals) - 1} goals were passed over: objno says which counts"
    if "threads" in call.values:
        answer.message += "\nthreads is passed over: one search has one thread"
    return answer, program.options, program.rows, program.variables


def write(text: str, path: Path) -> None:
    """Writes a file, which then has all of it or isn't there."""
    beside = path.with_name(f".{path.name}.{os.getpid()}")
    try:
        beside.write_text(text, encoding="utf-8", newline="")
        os.replace(beside, path)
    except BaseException:
        beside.unlink(missing_ok=True)
        raise


def main(words: Optional[list[str]] = None, name: str = "gubnatris_ampl") -> int:
    """Runs the driver; its status: 0 where it has an answer, 1 where the words, the file or the machine let it have none."""
    words = sys.argv[1:] if words is None else words
    if words[:1] == ["-v"]:
        print(f"{name} {version()} (.nl and .sol; linear and mixed-integer programs, exact)")
        return 0
    if words[:1] in (["-="], ["-?"], ["--help"]):
        print("\n".join([f"{name} STUB[.nl] [-AMPL] [KEY=VALUE ..]", *(f"  {key:<11} {what}" for key, what in KEYS.items())]))
        return 0
    signal.signal(signal.SIGTERM, signal.default_int_handler)  # so that what was started is ended
    call, status = Call(), 0
    try:
        call = call_of(words + os.environ.get(f"{name}_options", "").split())
        answer, options, rows, variables = solve(call)
    except (BadFile, BadModel) as failure:
        answer, options, rows, variables, status = Answer(f"{name}: {call.stub}.nl: {failure}", FAILURE), [], 0, 0, 1
    except (Error, ValueError) as failure:
        answer, options, rows, variables, status = Answer(f"{name}: {failure}", FAILURE), [], 0, 0, 1
    except KeyboardInterrupt:
        answer, options, rows, variables, status = Answer(f"{name}: interrupted, so there is no result", FAILURE), [], 0, 0, 1
    if status:
        print(answer.message, file=sys.stderr)
    elif call.values.get("outlev", "1") != "0":
        print(answer.message)
    stub = call.stub or next((word.removesuffix(".nl") for word in words if not word.startswith("-")), "")
    if stub and ("-AMPL" in words or call.values.get("wantsol") == "1"):
        try:
            write(sol_text(answer, options, rows, variables), Path(stub + ".sol"))
        except OSError as failure:
            print(f"{name}: {stub}.sol can't be written: {failure.strerror}", file=sys.stderr)
            return 1
    return status
