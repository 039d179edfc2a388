"""Times hostile documents of 1, 2 and 4 MB: seconds at each size, and how many times 1 MB takes 4 MB.

A shape is a document that grows in one way that could cost more than its bytes. The first shapes are of any XML
document, read by `bench_documents` into a tree; the others are instances and results, read by `os check`. What is answered is
compared, so a figure is that of a whole read. Fails where 4 MB take more than 5 times 1 MB.
"""

import os
import random
import sys
import tempfile

RUNS = 3
ROUNDS = 5
SIZES = (1_000_000, 2_000_000, 4_000_000)
MOST = 5
READER = os.path.abspath("crates/bench_documents/out/bench_documents")
PROGRAM = os.path.abspath("crates/os_main/out/os_main")


def filled(head, part, tail):
    """A document of parts, as many as there is room for. A part is a text or, of its number, a text."""

    def of(size):
        texts, room = [], size - len(head) - len(tail)
        while room > 0:
            text = part if isinstance(part, str) else part(len(texts))
            texts.append(text)
            room -= len(text.encode())
        return head + "".join(texts) + tail

    return of


def shuffled(begins):
    """A tag of attributes in no order, whose names begin so."""

    def of(size):
        names = [f" {begins}{k:06}=''" for k in range(size // (len(begins) + 10))]
        random.Random(1).shuffle(names)
        return "<a" + "".join(names) + "/>"

    return of


def of_one_number(k):
    """An attribute whose name has the same number in the base 257, modulo 2^64, for each k below 2^15: two texts of nine
    letters have one, since they differ by the coefficients of (x - 1)^8."""
    return " " + "".join(("azKz-zKza", "brgBsBgrb")[k >> place & 1] for place in range(15)) + "=''"


def twice(size):
    """A tag whose last attribute has the name of its first."""
    return filled("<a a0=''", lambda k: f" a{k + 1}=''", " a0=''/>")(size)


def halves(front, middle, back, letter):
    """A document with a run of letters in two places."""

    def of(size):
        run = letter * ((size - len(front) - len(middle) - len(back)) // 2)
        return front + run + middle + run + back

    return of


def deep(width):
    """Elements in one another as deep as may be, again and again, with names of so many letters."""
    name = "n" * width
    return filled("<a>", f"<{name}>" * 31 + f"</{name}>" * 31, "</a>")


def deep_once(size):
    """Elements in one another as deep as may be, whose names share the bytes."""
    name = "n" * (size // 64 - 4)
    return f"<{name}>" * 32 + f"</{name}>" * 32


# of any XML document: a name, the document of a size, and the answer
DOCUMENTS = [
    ("attributes in a tag", filled("<a", lambda k: f" a{k}=''", "/>"), "accepted"),
    ("attributes in no order", shuffled("a"), "accepted"),
    ("attributes in no order that begin alike", shuffled("abcdefghijklmnop"), "accepted"),
    ("attributes whose names have one number", filled("<a", of_one_number, "/>"), "accepted"),
    ("attributes of one letter's names", filled("<a", lambda k: " " + "a" * (k % 2000 + 1) + f"{k // 2000}=''", "/>"), "accepted"),
    ("attributes that begin alike", filled("<a", lambda k: " " + "a" * 300 + f"{k}=''", "/>"), "accepted"),
    ("attributes with a prefix", filled("<a", lambda k: f" p:a{k}=''", "/>"), "accepted"),
    ("attributes, the first again", twice, "refused Malformed"),
    ("tags with attributes", filled("<a>", "<b c='' d='' e=''/>", "</a>"), "accepted"),
    ("empty elements", filled("<a>", "<b/>", "</a>"), "accepted"),
    ("elements and letters", filled("<a>", "<b>x</b>y", "</a>"), "accepted"),
    ("elements with long names", filled("<a>", "<" + "n" * 1000 + "/>", "</a>"), "accepted"),
    ("elements as deep as may be", deep(1), "accepted"),
    ("the same with long names", deep(500), "accepted"),
    ("the same once", deep_once, "accepted"),
    ("one too deep, at the end", filled("<a>", "<b/>", "<a>" * 32), "refused Deep"),
    ("comments", filled("<a>", "<!---->", "</a>"), "accepted"),
    ("comments before the root", filled("", "<!-- -->", "<a/>"), "accepted"),
    ("one comment", filled("<a><!--", "- ", "--></a>"), "accepted"),
    ("instructions", filled("<a>", "<?p?>", "</a>"), "accepted"),
    ("one instruction", filled("<a><?p ", "?x", "?></a>"), "accepted"),
    ("CDATA sections", filled("<a>", "<![CDATA[]]>", "</a>"), "accepted"),
    ("one CDATA section of brackets", filled("<a><![CDATA[", "]", "]]></a>"), "accepted"),
    ("brackets", filled("<a>", "]", "</a>"), "accepted"),
    ("references to entities", filled("<a>", "&lt;", "</a>"), "accepted"),
    ("references to characters", filled("<a>", "&#x10FFFD;", "</a>"), "accepted"),
    ("one reference of zeros", filled("<a>&#", "0", "65;</a>"), "accepted"),
    ("references in a value", filled("<a b='", "&amp;", "'/>"), "accepted"),
    ("white space in a value", filled("<a b='", "\r\n", "'/>"), "accepted"),
    ("a long value", filled("<a b='", "x", "'/>"), "accepted"),
    ("a long attribute's name", filled("<a ", "x", "=''/>"), "accepted"),
    ("a long name", halves("<", ">x</", ">", "n"), "accepted"),
    ("a long name, of another end", halves("<", ">x</", "m>", "n"), "refused Malformed"),
    ("a long prefix", halves("<", ":a>x</", ":a>", "p"), "accepted"),
    ("white space", filled("<a>", " \t", "</a>"), "accepted"),
    ("white space in a tag", filled("<a", " ", "/>"), "accepted"),
    ("white space round an equals sign", halves("<a b", "=", "''/>", " "), "accepted"),
    ("white space before the root", filled("", "\n", "<a/>"), "accepted"),
    ("white space behind the root", filled("<a/>", "\n", ""), "accepted"),
    ("carriage returns", filled("<a>", "\r", "</a>"), "accepted"),
    ("characters of four bytes", filled("<a>", "\U0010fffd", "</a>"), "accepted"),
    ("digits of the version", filled("<?xml version='1.", "0", "'?><a/>"), "accepted"),
    ("one letter", filled("<a>", "x", "</a>"), "accepted"),
    ("an element that never ends", filled("<a>", "x", ""), "refused Malformed"),
]

VARIABLE = "<variables><var/></variables>"
COST = '<objectives><obj><coef idx="0">1</coef></obj></objectives>'
INSTANCE = f"<osil><instanceData>{VARIABLE}{COST}</instanceData></osil>"
SHOWN = "".join(
    f'<otherSolutionResult name="os_cert.{name}"><item>{item}</item></otherSolutionResult>'
    for name, item in (("point", "0"), ("value", "0"), ("tree", "bound 0:1"))
)
TOLD = '<general><generalStatus type="normal"/></general><job><status>finished</status></job>'
TREE = '<otherSolutionResult name="os_cert.tree">'


def osil(head, part, tail):
    """An instance with parts."""
    return filled("<osil><instanceData>" + head, part, tail + "</instanceData></osil>"), None


def osrl(head, part, tail, status="optimal", shown=SHOWN):
    """A result with parts, before what shows that 0 is least."""
    front = f'<osrl>{TOLD}<optimization><solution><status type="{status}"/>'
    back = "</solution></optimization></osrl>"
    results = "<otherSolutionResults>" + head
    return None, filled(front + results, part, tail + shown + "</otherSolutionResults>" + back)


# of an instance and a result: a name, one of the two of a size, and the answer
CHECKS = [
    ("digits of a cost", osil(VARIABLE + '<objectives><obj><coef idx="0">1.', "0", "</coef></obj></objectives>"), "accepted optimal"),
    ("digits before a bound", osil('<variables><var lb="', "0", f'"/></variables>{COST}'), "accepted optimal"),
    ("digits of a wide cost", osil(VARIABLE + '<objectives><obj><coef idx="0">', "9", "</coef></obj></objectives>"), "refused Instance osil Wide"),
    ("digits of a count", osil('<variables numberOfVariables="', "0", f'1"><var/></variables>{COST}'), "accepted optimal"),
    ("digits of an exponent", osil(VARIABLE + '<objectives><obj><coef idx="0">1e', "0", "</coef></obj></objectives>"), "accepted optimal"),
    ("white space round a cost", osil(VARIABLE + '<objectives><obj><coef idx="0">', " ", "1</coef></obj></objectives>"), "accepted optimal"),
    ("costs of one variable", osil(VARIABLE + '<objectives><obj><coef idx="0">1</coef>', '<coef idx="0">0</coef>', "</obj></objectives>"), "accepted optimal"),
    ("variables", osil("<variables>", "<var/>", f"</variables>{COST}"), "refused Instance osil TooBig"),
    ("entries", osil(f"{VARIABLE}{COST}<linearConstraintCoefficients><start>", "<el>0</el>", "</start></linearConstraintCoefficients>"), "refused Instance osil TooBig"),
    ("elements beside an instance", osil(f"{VARIABLE}{COST}</instanceData>", "<a><b/></a>", "<instanceHeader/><a>x</a><instanceData>"), "refused Instance osil Beyond"),
    ("items of a result", osrl('<otherSolutionResult name="a">', "<item>1</item>", "</otherSolutionResult>"), "accepted optimal"),
    ("results", osrl("", '<otherSolutionResult name="a"/>', ""), "accepted optimal"),
    ("a long name of a result", osrl('<otherSolutionResult name="', "a", '"/>'), "accepted optimal"),
    ("a long item", osrl('<otherSolutionResult name="a"><item>', "a ", "</item></otherSolutionResult>"), "accepted optimal"),
    ("nodes of a tree", osrl(TREE, "<item>split 0 0</item>", "</otherSolutionResult>", "infeasible", ""), "refused"),
    ("multipliers of a node", osrl(TREE + "<item>farkas", lambda k: f" {k}:1", "</item></otherSolutionResult>", "infeasible", ""), "refused"),
    ("a long number of a node", osrl(TREE + "<item>farkas 0:", "1", "</item></otherSolutionResult>", "infeasible", ""), "refused Result osrl Wide"),
    ("names of results twice", osrl("", SHOWN, ""), "refused Result osrl Count"),
]


def timed(words, source, wanted):
    """The least processor seconds of some runs. The answer begins with what is wanted."""
    seconds = None
    for _ in range(RUNS):
        with tempfile.TemporaryFile() as out:
            pid = os.posix_spawnp(
                words[0],
                words,
                os.environ,
                file_actions=[
                    (os.POSIX_SPAWN_OPEN, 0, source, os.O_RDONLY, 0),
                    (os.POSIX_SPAWN_DUP2, out.fileno(), 1),
                ],
            )
            _, _, usage = os.wait4(pid, 0)
            out.seek(0)
            answer = out.read().decode()
        if not answer.startswith(wanted):
            sys.exit(f"{words} answered {answer[:200]!r}, not {wanted!r}")
        spent = usage.ru_utime + usage.ru_stime
        seconds = spent if seconds is None else min(seconds, spent)
    return seconds


def written(folder, name, text):
    path = os.path.join(folder, name)
    with open(path, "w", newline="") as f:
        f.write(text)
    return path


def figures(name, figure_at):
    """Prints the figures of a shape, and whether they grow as the bytes do. Where they don't, it is timed again, since
    other work may have come between."""
    seconds = [figure_at(size) for size in SIZES]
    for _ in range(ROUNDS):
        if seconds[-1] <= MOST * seconds[0]:
            break
        seconds = [min(s, figure_at(size)) for s, size in zip(seconds, SIZES)]
    growth = seconds[-1] / seconds[0]
    print(f"{name} | " + " | ".join(f"{s:.3f}" for s in seconds) + f" | {growth:.1f}", flush=True)
    return growth <= MOST


def main():
    slow = []
    print("shape | 1 MB s | 2 MB s | 4 MB s | 4 MB over 1 MB")
    with tempfile.TemporaryDirectory() as folder:
        for name, document, wanted in DOCUMENTS:

            def read(size):
                return timed([READER, "tree"], written(folder, "document", document(size)), wanted)

            if not figures(name, read):
                slow.append(name)
        for name, (instance, result), wanted in CHECKS if sys.argv[1:] != ["documents"] else []:

            def check(size):
                paths = [
                    written(folder, "osil", instance(size) if instance else INSTANCE),
                    written(folder, "osrl", result(size) if result else osrl("", "", "")[1](0)),
                ]
                return timed([PROGRAM, "check", *paths], "/dev/null", wanted)

            if not figures(name, check):
                slow.append(name)
    if slow:
        sys.exit("4 MB take too many times 1 MB: " + ", ".join(slow))


if __name__ == "__main__":
    main()
