"""Compares what two builds of the program answer to `check`, byte for byte, on results that the older one makes, and on copies of them in
which one item is another.

    python3 bench/same_checks.py OLD NEW [COUNT [SEED [COPIES]]]

OLD and NEW are builds of `os_main`. The results are those of the examples and of the programs of `crates/try_runs/data`, some of which have
several goals or variables that may be 0 besides, and of programs as `same.py` makes them, every third of them with rounds. Of each result
there are COPIES copies, 3 where nothing else is said: a number is raised or turned, a word is another one, an item is gone or stands
twice. What a split names stays, since an older build takes no rows there. Stops at the first result that the two answer otherwise, and
leaves it as `same.osil` and `same.osrl`; else says how many had each answer.
"""

import collections
import pathlib
import random
import re
import subprocess
import sys
import tempfile

import programs
import same

ROOT = pathlib.Path(__file__).resolve().parent.parent
ITEM = re.compile(r"<item>[^<]*</item>")
NUMBER = re.compile(r"-?\d+(?=[^\d]*$)")
WORDS = ("farkas", "bound", "clash", "zero")
ROUNDS = '<osol><optimization><solverOptions><solverOption name="rounds" value="5"/></solverOptions></optimization></osol>'


def ran(program, *words):
    run = subprocess.run([program, *words], stdin=subprocess.DEVNULL, capture_output=True, check=False, timeout=60)
    return run.returncode, run.stdout


def raised(rng, text):
    """The text of an item with its last number raised by one, or turned; one without a number has a further pair."""
    found = NUMBER.search(text)
    if not found:
        return text.replace("</item>", " 0:1</item>")
    number = int(found.group())
    return text[: found.start()] + str(rng.choice([number + 1, number - 1, -number])) + text[found.end() :]


def renamed(rng, text):
    """The text with another word of a leaf, where it has one."""
    return re.sub(r"(?<=<item>)(farkas|bound)\b", lambda found: rng.choice(WORDS), text)


def spoilt(rng, result):
    """The result with one item changed; as it is where it has none."""
    items = list(ITEM.finditer(result))
    if not items:
        return result
    it = rng.choice(items)
    change = rng.choice([raised, raised, renamed, lambda rng, text: "", lambda rng, text: text * 2])
    return result[: it.start()] + change(rng, it.group()) + result[it.end() :]


def given(rng):
    """Instances, each with its options."""
    for path in sorted([*ROOT.glob("examples/*.osil"), *ROOT.glob("crates/try_runs/data/*.osil")]):
        yield path.read_text(encoding="utf-8"), ROUNDS
    while True:
        yield programs.osil(same.made(rng)), rng.choice([ROUNDS, "", ""])


def results(old, rng, folder, copies):
    """Results that the older build makes and copies of them, beside the files of the instances."""
    osil, osol = folder / "osil", folder / "osol"
    for instance, options in given(rng):
        osil.write_text(instance, encoding="utf-8")
        osol.write_text(options, encoding="utf-8")
        result = ran(old, "solve", str(osil), *(["--options", str(osol)] if options else []))[1].decode()
        yield instance, result
        for _ in range(copies):
            yield instance, spoilt(rng, result)


def word(answer):
    """The answer of a check without its numbers."""
    status, text = answer
    return f"{status} " + " ".join(piece for piece in text.decode().split() if piece.isalpha())


def main():
    old, new = sys.argv[1:3]
    count = int(sys.argv[3]) if len(sys.argv) > 3 else 10_000
    rng = random.Random(int(sys.argv[4]) if len(sys.argv) > 4 else 1)
    copies = int(sys.argv[5]) if len(sys.argv) > 5 else 3
    answers = collections.Counter()
    with tempfile.TemporaryDirectory() as at:
        folder = pathlib.Path(at)
        osrl = folder / "osrl"
        for _, (instance, result) in zip(range(count), results(old, rng, folder, copies)):
            osrl.write_text(result, encoding="utf-8")
            words = ("check", str(folder / "osil"), str(osrl))
            first = ran(old, *words)
            if first != ran(new, *words):
                pathlib.Path("same.osil").write_text(instance, encoding="utf-8")
                pathlib.Path("same.osrl").write_text(result, encoding="utf-8")
                sys.exit("another answer: see same.osil and same.osrl")
            answers[word(first)] += 1
    for name, times in answers.most_common():
        print(f"{times:8} {name}")


if __name__ == "__main__":
    main()
