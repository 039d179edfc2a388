#!/usr/bin/env python3
"""Writes the index of docs/DECISIONS.md: for each crate, in the order of crates.txt, the decisions whose text names it in backticks.
Run at the top of the repository: python3 tools/decisions_index.py; with --check it only tells whether the index is that of the text."""
import re
import sys
from pathlib import Path

BEGIN = "<!-- index: made by tools/decisions_index.py -->"
END = "<!-- end of index -->"
PAGE = Path("docs/DECISIONS.md")


def crates_in_order() -> list[str]:
    """The crates' names as crates.txt lists them."""
    lines = Path("crates.txt").read_text().splitlines()
    return [line.split(":")[0].split()[0] for line in lines if ":" in line and not line.startswith("#")]


def decisions(text: str) -> list[tuple[str, str]]:
    """Each decision as its title and its whole text."""
    parts = re.split(r"(?m)^(?=\*\*)", text)[1:]
    return [(part[2 : part.index("**", 2)].strip().rstrip("."), part) for part in parts]


def crates_named(text: str, crates: set[str]) -> set[str]:
    """The crates that a text names: `crate`, `crate::item` or `crate/file`."""
    words = re.findall(r"`([a-z0-9_]+)(?=[`:/])", text)
    return {word for word in words if word in crates}


def index_of(text: str) -> str:
    """The index as lines of a list, with those last that name no crate."""
    crates = crates_in_order()
    found: dict[str, list[str]] = {crate: [] for crate in crates}
    others = []
    for title, whole in decisions(text):
        named = crates_named(whole, set(crates))
        for crate in named:
            found[crate].append(title)
        if not named:
            others.append(title)
    lines = [f"- `{crate}`: " + "; ".join(titles) for crate, titles in found.items() if titles]
    return "\n".join([*lines, "- many crates, or none: " + "; ".join(others)])


def main() -> int:
    text = PAGE.read_text()
    head, rest = text.split(BEGIN)
    _, body = rest.split(END)
    made = f"{head}{BEGIN}\n{index_of(body)}\n{END}{body}"
    if "--check" in sys.argv[1:]:
        print("the index is that of the text" if made == text else "the index is not that of the text")
        return int(made != text)
    PAGE.write_text(made)
    return 0


if __name__ == "__main__":
    sys.exit(main())
