"""Times the reading of instances: seconds and peak memory of `check`, of `xmllint --noout` and of `xml.etree`.

Each instance has 1,000 variables with two ends each, and 10, 100 or 1,000 rows of 100 entries, listed one by one; the last
is at every limit. `check` gets it beside a small result, whose point it accepts. The peers get the instance's file alone;
`xml.etree` builds its tree in Python, whose own start is in the figure.
"""

import os
import random
import subprocess
import sys
import tempfile

from measuring import measured

VARIABLES = 1000
ROW_ENTRIES = 100
ETREE = "import sys, xml.etree.ElementTree as tree; tree.parse(sys.argv[1])"


def listed(name, numbers):
    return f"<{name}>" + "".join(f"<el>{number}</el>" for number in numbers) + f"</{name}>"


def osil(rows):
    """An instance of so many rows, each with 100 entries of eleven digits."""
    rng = random.Random(1)
    columns, values = [], []
    for _ in range(rows):
        columns += sorted(rng.sample(range(VARIABLES), ROW_ENTRIES))
        values += [f"{rng.randint(10**7, 10**8)}.{rng.randint(100, 999)}" for _ in range(ROW_ENTRIES)]
    starts = range(0, len(values) + 1, ROW_ENTRIES)
    costs = "".join(f'<coef idx="{j}">{rng.randint(1, 10**6)}</coef>' for j in range(VARIABLES))
    return (
        f'<osil><instanceData><variables numberOfVariables="{VARIABLES}">' + '<var lb="-1.5" ub="1000"/>' * VARIABLES
        + f"</variables><objectives><obj>{costs}</obj></objectives>"
        + f'<constraints numberOfConstraints="{rows}">' + '<con lb="-1e12" ub="1e12"/>' * rows + "</constraints>"
        + f'<linearConstraintCoefficients numberOfValues="{len(values)}">'
        + listed("start", starts) + listed("colIdx", columns) + listed("value", values)
        + "</linearConstraintCoefficients></instanceData></osil>"
    )


def result():
    """A result that claims the point 0, which each instance allows."""
    zeros = "<item>0</item>" * VARIABLES
    return (
        '<osrl><general><generalStatus type="normal"/></general><job><status>finished</status></job><optimization><solution>'
        + '<status type="bestSoFar"/><otherSolutionResults>'
        + f'<otherSolutionResult name="os_cert.point">{zeros}</otherSolutionResult>'
        + '<otherSolutionResult name="os_cert.value"><item>0</item></otherSolutionResult>'
        + '<otherSolutionResult name="os_cert.cause"><item>killed</item></otherSolutionResult>'
        + "</otherSolutionResults></solution></optimization></osrl>"
    )


def answered(words):
    """The instance was read: else a figure would be that of a refusal."""
    out = subprocess.run(words, capture_output=True, check=True).stdout
    if out != b"accepted bestSoFar\n":
        sys.exit(f"{words} was answered {out!r}")


def main():
    print("entries | instance bytes | check s | peak bytes a byte | xmllint s | xml.etree s | check / xmllint | check / xml.etree")
    with tempfile.TemporaryDirectory() as folder:
        for rows in (10, 100, 1_000):
            text = osil(rows)
            claim, document = os.path.join(folder, "claim"), os.path.join(folder, "document")
            with open(claim, "w") as f:
                f.write(result())
            with open(document, "w") as f:
                f.write(text)
            words = [os.path.abspath("crates/os_main/out/os_main"), "check", document, claim]
            answered(words)
            ours, peak = measured(words, "/dev/null")
            lint, _ = measured(["xmllint", "--noout", document], "/dev/null")
            etree, _ = measured([sys.executable, "-c", ETREE, document], "/dev/null")
            print(f"{rows * ROW_ENTRIES} | {len(text)} | {ours:.3f} | {peak / len(text):.1f} | {lint:.3f} | {etree:.3f} | {ours / lint:.2f} | {ours / etree:.2f}")


main()
