"""How long `solve` takes with a limit of time, on programs that it doesn't finish by then: seconds of the clock, from the start of the
program to its end, of which reading the instance and writing the result are a part.

    python3 bench/limits.py     OS_PROGRAM names the program
"""

import os
import re
import subprocess
import sys
import tempfile
import time

import programs

PROGRAM = os.environ["OS_PROGRAM"]
LIMITS = "".join(f'<solverOption name="{name}" value="{limit}"/>' for name, limit in (("nodeLimit", 10**6), ("pivotLimit", 10**8)))
RUNS = 5
OVER = 0.2  # seconds that a run may take besides its limit


def cases() -> list[tuple[programs.Program, str]]:
    """Programs with the seconds that they have, as options say them."""
    several = programs.with_goals(programs.general_assignment(6, 24), 3)
    return [(programs.sparse(1000), "0"), (programs.sparse(1000), "1"), (programs.general_assignment(8, 40), "3/2"), (several, "1")]


def run(instance: str, seconds: str, folder: str) -> tuple[float, str]:
    """The seconds of one run, and the cause that its result tells."""
    files = {"osil": instance, "osol": f"<osol><job><maxTime>{seconds}</maxTime></job><optimization><solverOptions>{LIMITS}</solverOptions></optimization></osol>"}
    for name, text in files.items():
        with open(f"{folder}/{name}", "w", encoding="ascii") as file:
            file.write(text)
    begun = time.monotonic()
    ran = subprocess.run([PROGRAM, "solve", f"{folder}/osil", "--options", f"{folder}/osol"], stdout=subprocess.PIPE, text=True, check=True)
    cause = re.search(r'"os_cert\.cause"><item>([^<]*)', ran.stdout)
    return time.monotonic() - begun, cause[1] if cause else "none"


def main() -> int:
    late = 0
    print(f"| program | limit | seconds of {RUNS} runs, least and most | cause |\n|---|---|---|---|")
    with tempfile.TemporaryDirectory() as folder:
        for program, seconds in cases():
            instance = programs.osil(program)
            runs = [run(instance, seconds, folder) for _ in range(RUNS)]
            took, causes = [took for took, _ in runs], {cause for _, cause in runs}
            numer, _, denom = seconds.partition("/")
            late += max(took) > int(numer) / int(denom or 1) + OVER or causes != {f"timeLimit {seconds}"}
            print(f"| {program.name} | {seconds} | {min(took):.2f}, {max(took):.2f} | {', '.join(sorted(causes))} |")
    return int(late > 0)


if __name__ == "__main__":
    sys.exit(main())
