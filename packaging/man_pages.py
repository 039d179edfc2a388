"""Writes the manual pages: gubnatris(1) of docs/commands.txt, one for each tool and each driver of its own docstring and usage, and one of section 7 for
each page of docs/rules, as lowdown reads it. Goes by the files below the current folder.

    python3 packaging/man_pages.py VERSION DAY FOLDER
"""

import ast
import re
import subprocess
import sys
from pathlib import Path

TOOLS = ("lp_to_osil", "mps_to_osil", "show_result", "watch_jobs")


def escaped(text: str) -> str:
    """The text for roff, with what stands between grave accents in bold."""
    text = text.replace("\\", "\\e").replace("-", "\\-")
    text = re.sub(r"`([^`]*)`", r"\\fB\1\\fR", text)
    return "\n".join("\\&" + line if line[:1] in (".", "'") else line for line in text.splitlines())


def page_name(file: str) -> str:
    """The name of the page of a tool or a rule."""
    return "gubnatris-" + file.replace("_", "-")


def sentence(text: str) -> str:
    return text[:1].upper() + text[1:]


def referring(text: str) -> str:
    """The text with the pages of rules named as manual pages."""
    rules = "|".join(path.stem for path in Path("docs/rules").glob("*.md"))
    return re.sub(rf"\b(?:docs/rules/)?({rules})\.md\b", lambda found: f"{page_name(found[1])}(7)", text)


def head(name: str, section: int, version: str, day: str, does: str) -> str:
    first = does[:1].lower() + does[1:].rstrip(".")
    return f'\'\\" t\n.TH {name.upper()} {section} "{day}" "Gubnatris {version}" "Gubnatris"\n.SH NAME\n{name} \\- {escaped(first)}\n'


def entries(lines: list[str]) -> tuple[dict[str, dict[str, list[str]]], list[str]]:
    """Each command with its lines by their first word, and what the statuses mean."""
    commands: dict[str, dict[str, list[str]]] = {}
    statuses, at = [], ""
    for line in lines:
        word, _, rest = line.partition(" ")
        if word == "command":
            at, commands[rest] = rest, {}
        elif word == "status":
            statuses.append(rest)
        elif word in ("words", "does", "takes", "gives", "ends", "example"):
            commands[at].setdefault(word, []).append(rest)
    return commands, statuses


def tagged(lines: list[str]) -> str:
    """Lines of a status and what it means."""
    return "".join(f".TP\n{number}\n{escaped(meaning)}\n" for number, _, meaning in (line.partition(" ") for line in lines))


def program_page(version: str, day: str, rules: list[str]) -> str:
    commands, statuses = entries(referring(Path("docs/commands.txt").read_text(encoding="utf-8")).splitlines())
    text = head("gubnatris", 1, version, day, "exact solver service for linear and mixed-integer programs") + ".SH SYNOPSIS\n"
    text += ".br\n".join(f".B gubnatris {escaped(words)}\n" for it in commands.values() for words in it["words"]) + ".SH COMMANDS\n"
    for name, it in commands.items():
        text += f".SS {name}\n{escaped(sentence(it['does'][0]))}.\n"
        text += "".join(f".TP\n{word}\n{escaped(it[word][0])}\n" for word in ("takes", "gives"))
        text += f".TP\nends with\n.RS\n{tagged(it['ends'])}.RE\n.TP\nexample\n.B {escaped(it['example'][0])}\n"
    text += f".SH EXIT STATUS\n{tagged(statuses)}.SH SEE ALSO\n"
    others = [(page_name(name), 1) for name in TOOLS] + [(rule, 7) for rule in rules]
    return text + ",\n".join(f".BR {escaped(name)} ({section})" for name, section in others) + "\n"


def tool_page(name: str, version: str, day: str) -> tuple[str, str]:
    tree = ast.parse(Path("tools", name).read_text(encoding="utf-8"))
    does, _, more = (ast.get_docstring(tree) or "").partition(". ")
    usage = next(ast.literal_eval(it.value) for it in tree.body if isinstance(it, ast.Assign) and getattr(it.targets[0], "id", "") == "USAGE")
    page = page_name(name)
    text = head(page, 1, version, day, does.replace("\n", " ")) + f".SH SYNOPSIS\n.nf\n{escaped(usage.removeprefix('usage: '))}\n.fi\n"
    return page, text + (f".SH DESCRIPTION\n{escaped(more)}\n" if more else "") + ".SH SEE ALSO\n.BR gubnatris (1)\n"


def driver_page(path: Path, version: str, day: str) -> tuple[str, str]:
    does, _, more = (ast.get_docstring(ast.parse(path.read_text(encoding="utf-8"))) or path.name).partition(", as it stands in this checkout")
    more = more.lstrip("; .")
    return path.name, head(path.name, 1, version, day, does.replace("\n", " ")) + (f".SH DESCRIPTION\n{escaped(sentence(more))}\n" if more else "") + ".SH SEE ALSO\n.BR gubnatris (1)\n"


def rule_page(path: Path, version: str, day: str) -> tuple[str, str]:
    title, _, rest = path.read_text(encoding="utf-8").partition("\n")
    page = page_name(path.stem)
    made = subprocess.run(["lowdown", "-Tman"], input=referring(rest), capture_output=True, text=True, check=True).stdout
    return page, head(page, 7, version, day, "rules: " + title.lstrip("# ")) + ".ad l\n.nh\n.SH DESCRIPTION\n" + made


def main() -> None:
    version, day, folder = sys.argv[1:]
    rules = [rule_page(path, version, day) for path in sorted(Path("docs/rules").glob("*.md"))]
    pages = {f"{name}.7": text for name, text in rules} | {f"{name}.1": text for name, text in (tool_page(it, version, day) for it in TOOLS)}
    pages |= {f"{name}.1": text for name, text in (driver_page(path, version, day) for path in sorted(Path("drivers").glob("*")))}
    pages["gubnatris.1"] = program_page(version, day, [name for name, _ in rules])
    for name, text in pages.items():
        Path(folder, name).write_text(text, encoding="utf-8")


if __name__ == "__main__":
    main()
