"""What a first point spares a search: nodes and processor seconds of `solve` without one, with the best point that a search of so many
nodes had found, and with the best of all.

    python3 bench/first_points.py     OS_PROGRAM names the program
"""

import os
import re
import subprocess
import sys
import tempfile
from fractions import Fraction

import programs

PROGRAM = os.environ["OS_PROGRAM"]
LIMITS = {"nodeLimit": 10**6, "pivotLimit": 10**8}
EARLY = 10  # the part of the nodes behind which the first search is ended


class Found:
    """What a run tells: its processor seconds, its status, its point, its value, the nodes of its tree, and its message."""

    def __init__(self, seconds: float, text: str) -> None:
        self.seconds, self.status = seconds, re.search(r'<status type="(\w+)"', text)[1]
        self.point, values = items(text, "point"), items(text, "value")
        self.value = Fraction(values[0]) if values else None
        self.nodes = sum(not item.startswith("level ") for item in items(text, "tree"))
        message = re.search(r"<message>([^<]*)", text)
        self.message = message[1] if message else ""


def items(text: str, name: str) -> list[str]:
    """The items of a part of a result, none where it has no such part."""
    part = re.search(rf'"os_cert\.{name}">(.*?)</otherSolutionResult>', text, re.DOTALL)
    return re.findall("<item>([^<]*)", part[1]) if part else []


def options(point: list[str], nodes: int) -> str:
    """Options with these first values and this limit of nodes."""
    values = "".join(f'<var idx="{j}" value="{value}"/>' for j, value in enumerate(point))
    first = f"<variables><initialVariableValues>{values}</initialVariableValues></variables>" if point else ""
    limits = "".join(f'<solverOption name="{name}" value="{limit}"/>' for name, limit in {**LIMITS, "nodeLimit": nodes}.items())
    return f"<osol><optimization>{first}<solverOptions>{limits}</solverOptions></optimization></osol>"


def found(folder: str, point: list[str], nodes: int = LIMITS["nodeLimit"]) -> Found:
    """A run on the folder's instance."""
    with open(f"{folder}/osol", "w", encoding="ascii") as file:
        file.write(options(point, nodes))
    with tempfile.TemporaryFile() as out:
        process = subprocess.Popen([PROGRAM, "solve", f"{folder}/osil", "--options", f"{folder}/osol"], stdout=out)
        _, status, usage = os.wait4(process.pid, 0)
        process.returncode = status
        out.seek(0)
        text = out.read().decode()
    if status != 0:
        sys.exit(f"a run ended with {status}")
    return Found(usage.ru_utime + usage.ru_stime, text)


def cells(run: Found, alone: Found) -> str:
    """A run's nodes and seconds, each beside those without a point."""
    return f"{run.nodes:,} | {run.nodes / alone.nodes:.2f} | {run.seconds:.2f} | {run.seconds / alone.seconds:.2f}"


def tell(program: programs.Program, folder: str) -> bool:
    """A program's row, and whether all its runs agree."""
    with open(f"{folder}/osil", "w", encoding="ascii") as file:
        file.write(programs.osil(program))
    alone = found(folder, [])
    early = found(folder, [], max(1, alone.nodes // EARLY))
    runs = [found(folder, point) for point in (early.point, alone.point) if point]
    told = " | ".join(cells(run, alone) for run in runs) if len(runs) == 2 else f"- | - | - | - | {cells(runs[0], alone)}"
    print(f"| {program.name} | {alone.nodes:,} | {alone.seconds:.2f} | {told} | {alone.value} |", flush=True)
    return all(run.status == "optimal" and run.value == alone.value and not run.message for run in runs)


def main() -> int:
    print("| program | nodes | s | with an early point: nodes | of those without | s | of those without | with the best point: nodes | of those without | s | of those without | value |")
    print("|---" * 12 + "|")
    several = (programs.general_assignment(5, 25), programs.fixed_charge(8, 12), programs.job_shop(5, 3))
    with tempfile.TemporaryDirectory() as folder:
        return int(not all([tell(program, folder) for program in several]))


if __name__ == "__main__":
    sys.exit(main())
