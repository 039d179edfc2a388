"""Times reading documents: seconds, MB/s and peak memory of `bench_documents`, piece by piece and into a tree, and of other parsers.

The documents are OSiL with runs of `<el>..</el>` and attributes, as modelling systems write them: 1,000
variables and rows, and as many entries of the matrix as the size asks for.
"""

import os
import random
import tempfile

from measuring import measured

OURS = "crates/bench_documents/out/bench_documents"


def osil(size):
    """An OSiL document of about this many bytes."""
    rng = random.Random(1)
    parts = ['<?xml version="1.0" encoding="UTF-8"?><osil xmlns="os.optimizationservices.org"><instanceHeader/>']
    parts.append('<instanceData><variables numberOfVariables="1000">')
    parts += [f'<var type="C" lb="{rng.randint(0, 9)}" ub="{rng.randint(10, 99)}"/>' for _ in range(1000)]
    parts.append('</variables><objectives numberOfObjectives="1"><obj maxOrMin="max" numberOfObjCoef="1000">')
    parts += [f'<coef idx="{j}">{rng.randint(1, 999)}</coef>' for j in range(1000)]
    parts.append('</obj></objectives><constraints numberOfConstraints="1000">')
    parts += [f'<con ub="{rng.randint(1000, 99999)}"/>' for _ in range(1000)]
    parts.append("</constraints><linearConstraintCoefficients>")
    lists = {"start": [], "colIdx": [], "value": []}
    room = size - sum(map(len, parts)) - 150
    while room > 0:
        for name in lists:
            el = f"<el>{rng.randint(0, 99999)}</el>"
            lists[name].append(el)
            room -= len(el)
    for name, els in lists.items():
        parts += [f"<{name}>", *els, f"</{name}>"]
    parts.append("</linearConstraintCoefficients></instanceData></osil>")
    return "".join(parts).encode()


def main():
    print("document bytes | ours s | MB/s | peak bytes a byte | tree s | peak bytes a byte | xmllint s | xmlwf s | ours / xmlwf | ours / xmllint | tree / xmllint")
    first = None
    with tempfile.TemporaryDirectory() as folder:
        for size in (1_000_000, 2_000_000, 4_000_000):
            text = osil(size)
            document = os.path.join(folder, "document.xml")
            with open(document, "wb") as f:
                f.write(text)
            ours, peak = measured([OURS], document)
            tree, held = measured([OURS, "tree"], document)
            lint, _ = measured(["xmllint", "--noout", document], "/dev/null")
            expat, _ = measured(["xmlwf", document], "/dev/null")
            first = first or ours
            n = len(text)
            print(
                f"{n} | {ours:.3f} | {n / 1e6 / ours:.1f} | {peak / n:.1f} | {tree:.3f} | {held / n:.1f} | {lint:.3f} | {expat:.3f}"
                f" | {ours / expat:.2f} | {ours / lint:.2f} | {tree / lint:.2f}"
            )
            last = ours
        print(f"the time of the last over that of the first: {last / first:.2f}")


main()
