"""A linear or mixed-integer program as planners' files say it: its exact numbers, its limits, and the OSiL that says the same.

The readers of the file formats build a `Program`; each number is a decimal as it stands in the file, never a binary fraction. What a
file says that a program hasn't is a `Complaint`, and what it leaves open is a note for the reader of the standard error.
"""

import decimal
import os
import sys
import tempfile

sys.path.append(os.path.join(os.path.dirname(os.path.dirname(os.path.abspath(__file__))), "clients", "python"))

from gubnatris.errors import NotInstance as Complaint  # why a file isn't what it should be, in one line
from gubnatris.instances import NUMBER
from gubnatris.limits import GREATEST, MOST_COLUMNS, MOST_DOCUMENT, MOST_GOALS, MOST_VALUES
from gubnatris.writing import NO_XML, GoalText, RowText, VariableText, osil_text

MOST_FILE = 64_000_000
INPUT = "-"  # in place of a file's name
MOST_DIGITS, MOST_EXPONENT = 300, 10_000  # past these no number is within 128 bits, nor is it what anybody writes for infinity
INFINITE = decimal.Decimal("1e20")  # CPLEX's CPX_INFBOUND: an end of this size is none
# Numbers within 128 bits and their sums have far fewer digits, so nothing is rounded; if something were, it would be an exception.
decimal.setcontext(decimal.Context(prec=400, traps=[decimal.Inexact, decimal.InvalidOperation]))


class Unread(Exception):
    """Why a file couldn't be read, in one line."""


def fits(number):
    """Whether the server's fractions hold it: written as n * 10^k, n not a multiple of ten (`docs/rules/numbers.md`)."""
    _, digits, exponent = number.as_tuple()
    whole = "".join(map(str, digits)).lstrip("0")
    exponent += len(whole) - len(whole.rstrip("0"))
    whole = whole.rstrip("0")
    if not whole:
        return True
    if len(whole) > 39 or abs(exponent) > 38:
        return False
    if exponent >= 0:
        return int(whole) * 10**exponent <= GREATEST
    return int(whole) <= GREATEST and 10**-exponent <= GREATEST


def fitted(number, where):
    if not fits(number):
        raise Complaint(f"{where}: {str(number)[:40]} passes 128 bits, so the server would refuse it; take other units, or fewer digits")
    return number


def decimal_of(text, where):
    """The decimal that a text is, exactly, of any size."""
    if not NUMBER.fullmatch(text):
        raise Complaint(f"{where}: {text[:40]!r} is no number")
    try:
        value = decimal.Decimal(text)
    except decimal.InvalidOperation as error:
        raise Complaint(f"{where}: {text[:40]} has too great an exponent") from error
    _, digits, exponent = value.as_tuple()
    if len(digits) > MOST_DIGITS or abs(exponent) > MOST_EXPONENT:
        raise Complaint(f"{where}: {text[:40]} has too many digits, or too great an exponent")
    return value


def number(text, where):
    """The decimal that a text is, exactly, where the server's fractions hold it."""
    return fitted(decimal_of(text, where), where)


def end_number(text, where):
    """As `number`, of an end: what is infinite is 1e20 or -1e20, whatever its size."""
    value = decimal_of(text, where)
    return INFINITE.copy_sign(value) if abs(value) >= INFINITE else fitted(value, where)


def lower_end(value, where):
    """An end as a lower one: none where it is minus infinity."""
    if value >= INFINITE:
        raise Complaint(f"{where}: a lower end is infinite (1e20 and more is), and no value is beyond it")
    return None if value <= -INFINITE else value


def upper_end(value, where):
    """An end as an upper one: none where it is infinite."""
    if value <= -INFINITE:
        raise Complaint(f"{where}: an upper end is minus infinity (-1e20 and less is), and no value is below it")
    return None if value >= INFINITE else value


def total(left, right, where):
    """A sum of ends, which is infinite where one of them is."""
    infinite = [value for value in (left, right) if abs(value) >= INFINITE]
    return infinite[0] if infinite else fitted(left + right, where)


class Variable:
    """A variable: its ends, none where there is none, whether it is whole, and whether it may be 0 besides them."""

    def __init__(self, name):
        self.name, self.low, self.high, self.whole, self.zero = name, decimal.Decimal(0), None, False, False

    def kind(self):
        """Its type in OSiL."""
        return ("J" if self.whole else "D") if self.zero else ("I" if self.whole else "C")


class Row:
    """A row: its ends, none where there is none, and its factors by the variables' numbers."""

    def __init__(self, name):
        self.name, self.low, self.high, self.factors = name, None, None, {}


class Goal:
    """A goal: its name, whether more is better, its constant, and its costs by the variables' numbers."""

    def __init__(self, name="", maximise=False):
        self.name, self.maximise, self.constant, self.costs = name, maximise, decimal.Decimal(0), {}


class Program:
    """A program. Its first goal counts first; the notes say how what a file leaves open was read."""

    def __init__(self):
        self.name, self.goals, self.variables, self.rows, self.notes = "", [Goal()], [], [], []

    def find_too_big(self):
        values = sum(len(row.factors) for row in self.rows)
        for count, most, what in (
            (len(self.variables), MOST_COLUMNS, "variables"),
            (len(self.rows), MOST_COLUMNS, "rows"),
            (len(self.goals), MOST_GOALS, "goals"),
            (values, MOST_VALUES, "values in the matrix"),
        ):
            if count > most:
                raise Complaint(f"it is too big: {count:,} {what}, and {most:,} are the most")


def plain(value):
    """A decimal without an exponent and without zeros that say nothing."""
    text = f"{value:f}"
    text = text.rstrip("0").rstrip(".") if "." in text else text
    return "0" if text in ("-0", "") else text


def plain_end(value):
    return None if value is None else plain(value)


def plain_terms(factors):
    """Factors that aren't 0 by the variables' numbers, in their order."""
    return [(column, plain(factor)) for column, factor in sorted(factors.items()) if factor]


def osil(program):
    """The OSiL document of a program (`docs/rules/instances.md`)."""
    program.find_too_big()
    variables = [VariableText(it.name, it.kind(), plain_end(it.low), plain_end(it.high)) for it in program.variables]
    goals = [GoalText(it.name, it.maximise, plain(it.constant), plain_terms(it.costs)) for it in program.goals]
    rows = [RowText(row.name, plain_end(row.low), plain_end(row.high), plain_terms(row.factors)) for row in program.rows]
    text = osil_text(program.name, variables, goals, rows)
    size = len(text.encode())
    if size > MOST_DOCUMENT:
        raise Complaint(f"it is too big: its OSiL has {size:,} bytes, and {MOST_DOCUMENT:,} are the most; shorter names help")
    return text


def read_bytes(path, most=MOST_FILE):
    """The bytes of a file of at most so many; `-` is the standard input."""
    try:
        with open(sys.stdin.fileno() if path == INPUT else path, "rb", closefd=path != INPUT) as it:
            data = it.read(most + 1)
    except OSError as error:
        raise Unread(f"{path}: can't be read: {error.strerror.lower()}") from error
    if len(data) > most:
        raise Complaint(f"it is too big: it has more than {most:,} bytes")
    return data


def read_text(path):
    """The text of a file, which has to be UTF-8 of characters that XML has."""
    data = read_bytes(path)
    try:
        text = data.decode()
    except UnicodeDecodeError as error:
        raise Complaint(f"it is no text: byte {error.start + 1} isn't UTF-8") from error
    bad = NO_XML.search(text)
    if bad:
        raise Complaint(f"it is no text: line {text.count(chr(10), 0, bad.start()) + 1} has the character U+{ord(bad.group()):04X}")
    return text.removeprefix("\ufeff")


def write_whole(text, path):
    """Writes a text to a file, which then has all of it or stays as it was; or, where no file is named, to the standard output."""
    if path is None:
        sys.stdout.buffer.write(text.encode())
        sys.stdout.buffer.flush()
        return
    folder = os.path.dirname(os.path.abspath(path))
    handle, beside = tempfile.mkstemp(dir=folder, prefix=".")
    try:
        with os.fdopen(handle, "wb") as it:
            it.write(text.encode())
            it.flush()
            os.fsync(it.fileno())
        mask = os.umask(0)
        os.umask(mask)
        os.chmod(beside, 0o666 & ~mask)
        os.replace(beside, path)
    except BaseException:
        os.unlink(beside)
        raise


def printable(text):
    """A text whose characters move no cursor: what comes from files and servers is shown at terminals."""
    return "".join(letter if letter.isprintable() else "?" for letter in text)


def say(tool, text):
    print(printable(f"{tool}: {text}"), file=sys.stderr)


def ended(tool, file, work):
    """Runs a tool's work on a file, and gives the status with which the tool ends: 0, 1 (the file isn't what it should be), 3, 4."""
    try:
        work()
        return 0
    except Complaint as error:
        say(tool, f"{file}: {error}")
        return 1
    except Unread as error:
        say(tool, str(error))
        return 3
    except BrokenPipeError:
        os.dup2(os.open(os.devnull, os.O_WRONLY), sys.stdout.fileno())  # so that nothing more is tried at the end
        say(tool, "the output can't be written: nobody reads it any more")
        return 4
    except OSError as error:
        say(tool, f"the output can't be written: {error.strerror.lower()}")
        return 4


def convert(tool, read, usage, flags):
    """The command `tool [FLAGS] FILE [OSIL]`: reads a file, writes its OSiL, and says the notes. Gives the status."""
    words = [word for word in sys.argv[1:] if not word.startswith("--")]
    given = {word for word in sys.argv[1:] if word.startswith("--")}
    if given - set(flags) or not 1 <= len(words) <= 2:
        print(usage, file=sys.stderr)
        return 2

    def work():
        program = read(read_text(words[0]), given)
        program.name = program.name or ("input" if words[0] == INPUT else os.path.basename(words[0]).split(".")[0])
        write_whole(osil(program), words[1] if len(words) == 2 else None)
        for note in program.notes:
            say(tool, f"note: {words[0]}: {note}")

    return ended(tool, words[0], work)
