"""Writes result documents as the program writes them (`docs/rules/results.md`)."""

import fractions
from xml.sax.saxutils import escape

PLACES = 10**12


def cut(value):
    """A number cut towards zero after twelve decimals."""
    size = int(abs(value) * PLACES)
    digits = f"{size // PLACES}.{size % PLACES:012d}".rstrip("0").rstrip(".")
    return f"-{digits}" if value < 0 and size else digits


def values_of(name, item, pairs):
    inner = "".join(f'<{item} idx="{index}">{cut(fractions.Fraction(value))}</{item}>' for index, value in pairs)
    return f"<{name}>{inner}</{name}>"


def duals_of(parts, count):
    """The multipliers of rows of a tree that is one leaf, for people."""
    if "rounds" in parts or len(parts.get("tree", [])) != 1 or not parts["tree"][0].startswith("bound"):
        return ""
    pairs = [piece.split(":") for piece in parts["tree"][0].split(" ")[1:]]
    of_rows = [(int(column) - count, value) for column, value in pairs if int(column) >= count]
    return f"<constraints>{values_of('dualValues', 'con', of_rows)}</constraints>" if of_rows else ""


def osrl(claim, parts):
    """The text of a result: a kind of claim, and the items of each part of its certificate, in the order of the rules."""
    shown = ""
    if "point" in parts:
        shown = f"<variables>{values_of('values', 'var', enumerate(parts['point']))}</variables>"
        shown += f"<objectives>{values_of('values', 'obj', ((-k - 1, value) for k, value in enumerate(parts['value'])))}</objectives>"
    if claim == "optimal" and len(parts["value"]) == 1:
        shown += duals_of(parts, len(parts["point"]))
    others = "".join(
        f'<otherSolutionResult name="os_cert.{name}">' + "".join(f"<item>{escape(item)}</item>" for item in items) + "</otherSolutionResult>"
        for name, items in parts.items()
    )
    return (
        '<?xml version="1.0" encoding="UTF-8"?><osrl xmlns="os.optimizationservices.org"><general><generalStatus type="normal"/></general>'
        f'<job><status>finished</status></job><optimization><solution><status type="{claim}"/>{shown}'
        f"<otherSolutionResults>{others}</otherSolutionResults></solution></optimization></osrl>"
    )
