"""Reads MPS, fixed and free (IBM MPSX/370 Program Reference; IBM CPLEX, File formats: MPS), each number exactly.

Fixed MPS has its fields in columns 2-3, 5-12, 15-22, 25-36, 40-47 and 50-61, so that names may have spaces; free MPS has them between
spaces. `docs/rules/planner_files.md` says what each section means.
"""

import linear_program as lp
from linear_program import Complaint

FIELDS = ((1, 3), (4, 12), (14, 22), (24, 36), (39, 47), (49, 61))
LAST = 72  # sequence numbers stand behind it
SECTIONS = ("NAME", "OBJSENSE", "OBJNAME", "ROWS", "COLUMNS", "RHS", "RANGES", "BOUNDS", "ENDATA")
SENSES = {"MAX": True, "MAXIMIZE": True, "MAXIMISE": True, "MIN": False, "MINIMIZE": False, "MINIMISE": False}
ENDLESS = ("FR", "MI", "PL", "BV")
BOUNDED = ("LO", "UP", "FX", "LI", "UI", "SC", "SI")


def fixed_fields(line, where):
    """The six fields of a data line, empty where nothing stands."""
    if "\t" in line:
        raise Complaint(f"{where}: a tab stands there, and fixed MPS goes by columns; is it free MPS? then give --free")
    fields, before = [], 0
    for start, stop in FIELDS:
        gap = line[before:start]
        if gap.strip():
            column = before + len(gap) - len(gap.lstrip()) + 1
            raise Complaint(f"{where}: column {column} is between the fields of fixed MPS, and isn't empty; is it free MPS? then give --free")
        text = line[start:stop].strip()
        if len(fields) in (2, 4) and text.startswith("$"):
            break
        fields.append(text)
        before = stop
    else:
        if line[before:LAST].strip():
            raise Complaint(f"{where}: something stands behind column 61; is it free MPS? then give --free")
    return fields + [""] * (6 - len(fields))


def free_tokens(line):
    tokens = line.split()
    comment = next((k for k, token in enumerate(tokens) if token.startswith("$")), len(tokens))
    return tokens[:comment]


class Reader:
    """What was read of a file so far. Rows with the kind N are kept apart: one is the goal, the others restrict nothing."""

    def __init__(self, is_free, is_glpk):
        self.is_free, self.is_glpk = is_free, is_glpk
        self.program, self.kinds, self.sides, self.ranges = lp.Program(), {}, {}, {}
        self.rows, self.columns, self.bounded, self.low_said = {}, {}, set(), set()
        self.goal, self.is_whole, self.where = None, False, ""
        self.sets, self.last_set, self.passed_over, self.last_column = {}, {}, {}, ""

    # Lines

    def row_fields(self, line):
        """Of a line of ROWS: the kind and the name."""
        if not self.is_free:
            return fixed_fields(line, self.where)[:2]
        tokens = free_tokens(line)
        if len(tokens) != 2:
            raise Complaint(f"{self.where}: a row has a kind and a name, and here are {len(tokens)} words")
        return tokens

    def pair_fields(self, line, may_have_no_name):
        """Of a line of COLUMNS, RHS or RANGES: the name, and one or two pairs of a row and a number's text."""
        if self.is_free:
            tokens = free_tokens(line)
            if may_have_no_name and len(tokens) in (2, 4):
                tokens.insert(0, "")
            if len(tokens) not in (3, 5):
                raise Complaint(f"{self.where}: there should be a name and one or two pairs of a row and a number, and here are {len(tokens)} words")
            name, rest = tokens[0], tokens[1:]
        else:
            code, name, *rest = fixed_fields(line, self.where)
            if code:
                raise Complaint(f"{self.where}: columns 2 and 3 should be empty; is it free MPS? then give --free")
        pairs = [(row, text) for row, text in zip(rest[::2], rest[1::2]) if row or text]
        if not pairs:
            raise Complaint(f"{self.where}: no row is named")
        return name, pairs

    def bound_fields(self, line):
        """Of a line of BOUNDS: the kind, the set, the variable and the number's text."""
        if not self.is_free:
            return fixed_fields(line, self.where)[:4]
        kind, *tokens = free_tokens(line)
        kind = kind.upper()
        has_set = len(tokens) == 3 or len(tokens) == 2 and kind in ENDLESS and tokens[1] in self.columns
        if not has_set:
            tokens.insert(0, "")
        if len(tokens) not in (2, 3):
            raise Complaint(f"{self.where}: a bound has a kind, a set, a variable and a number, and here are {len(tokens)} words behind the kind")
        return kind, *(tokens + [""])[:3]

    def is_first_set(self, section, name):
        """Whether a right side, range or bound is of the first set of its section; the others are passed over. Without a name it is of
        the set of the line before."""
        name = self.last_set[section] = name or self.last_set.get(section, "")
        if self.sets.setdefault(section, name) == name:
            return True
        self.passed_over[section] = self.passed_over.get(section, 0) + 1
        return False

    # Sections

    def objsense(self, line):
        word = line.strip().upper()
        if word not in SENSES:
            raise Complaint(f"{self.where}: {line.strip()!r} is neither MAX nor MIN")
        self.program.goals[0].maximise = SENSES[word]

    def objname(self, line):
        self.goal = line.strip()

    def row(self, line):
        kind, name = self.row_fields(line)
        kind = kind.upper()
        if kind not in ("N", "E", "L", "G") or not name:
            raise Complaint(f"{self.where}: a row's kind is N, E, L or G, and a name stands behind it; is it {'fixed' if self.is_free else 'free'} MPS?")
        if name in self.kinds:
            raise Complaint(f"{self.where}: a second row {name}")
        self.kinds[name] = kind
        if kind == "N":
            self.goal = self.goal or name
        else:
            self.rows[name] = lp.Row(name)

    def column(self, line):
        tokens = free_tokens(line) if self.is_free else fixed_fields(line, self.where)[1:5]
        if "'MARKER'" in tokens[1:2]:
            self.mark(tokens)
            return
        name, pairs = self.pair_fields(line, False)
        name = name or self.last_column
        if name != self.last_column:
            self.begin_column(name)
        number = self.columns[name]
        for row, text in pairs:
            value = lp.number(text, self.where)
            kind = self.kind_of(row)
            factors = self.program.goals[0].costs if row == self.goal else self.rows[row].factors if kind != "N" else {}
            if number in factors:
                raise Complaint(f"{self.where}: a second number for the variable {name} in the row {row}")
            factors[number] = value

    def mark(self, tokens):
        word = next((token for token in tokens[2:] if token), "")
        if word not in ("'INTORG'", "'INTEND'"):
            raise Complaint(f"{self.where}: a marker is 'INTORG' or 'INTEND', and here is {word or 'none'}")
        self.is_whole = word == "'INTORG'"

    def begin_column(self, name):
        if name in self.columns:
            raise Complaint(f"{self.where}: the variable {name} comes a second time, with others between")
        self.columns[name], self.last_column = len(self.columns), name
        variable = lp.Variable(name)
        variable.whole = self.is_whole
        self.program.variables.append(variable)

    def kind_of(self, row):
        if row not in self.kinds:
            raise Complaint(f"{self.where}: there is no row {row or 'without a name'}")
        return self.kinds[row]

    def side(self, line):
        name, pairs = self.pair_fields(line, True)
        if self.is_first_set("RHS", name):
            self.keep(self.sides, pairs, "right side")

    def range(self, line):
        name, pairs = self.pair_fields(line, True)
        if self.is_first_set("RANGES", name):
            self.keep(self.ranges, pairs, "range")
            for row, _ in pairs:
                if self.kinds[row] == "N":
                    raise Complaint(f"{self.where}: the row {row} has the kind N, and no range")

    def keep(self, kept, pairs, what):
        for row, text in pairs:
            self.kind_of(row)
            if row in kept:
                raise Complaint(f"{self.where}: a second {what} of the row {row}")
            kept[row] = lp.end_number(text, self.where)

    def bound(self, line):
        kind, name, column, text = self.bound_fields(line)
        if kind not in ENDLESS + BOUNDED:
            raise Complaint(f"{self.where}: {kind or 'nothing'} is no kind of bound; those read are {', '.join(BOUNDED + ENDLESS)}")
        if column not in self.columns:
            raise Complaint(f"{self.where}: there is no variable {column or 'without a name'}")
        if self.is_first_set("BOUNDS", name):
            self.bounded.add(column)
            variable = self.program.variables[self.columns[column]]
            self.set_ends(kind, variable, lp.end_number(text, self.where) if kind in BOUNDED else None)

    def set_ends(self, kind, variable, value):
        variable.whole |= kind in ("BV", "LI", "UI", "SI")
        variable.zero |= kind in ("SC", "SI")
        if kind == "BV":
            variable.low, variable.high = lp.decimal.Decimal(0), lp.decimal.Decimal(1)
        if kind in ("LO", "LI", "FX", "FR", "MI"):
            variable.low = None if value is None else lp.lower_end(value, self.where)
            self.low_said.add(variable.name)
        if kind in ("UP", "UI", "FX", "FR", "PL", "SC", "SI"):
            variable.high = None if value is None else lp.upper_end(value, self.where)

    # The whole

    def set_row(self, row):
        """A row's ends, of its kind, its right side and its range."""
        zero, where = lp.decimal.Decimal(0), f"the row {row.name}"
        kind, side, width = self.kinds[row.name], self.sides.get(row.name, zero), self.ranges.get(row.name)
        low = side if kind in "EG" else -lp.INFINITE
        high = side if kind in "EL" else lp.INFINITE
        if width is not None:
            if kind == "G" or kind == "E" and width > 0:
                high = lp.total(side, abs(width), where)
            elif kind == "L" or width < 0:
                low = lp.total(side, -abs(width), where)
        row.low, row.high = lp.lower_end(low, where), lp.upper_end(high, where)

    def finish_variables(self):
        """What no bound says of the ends of variables."""
        zero_or_one = [v for v in self.program.variables if v.whole and v.name not in self.bounded]
        for variable in zero_or_one:
            variable.high = lp.decimal.Decimal(1)
        below = [v for v in self.program.variables if v.high is not None and v.high < 0 and v.name not in self.low_said]
        for variable in below:
            variable.low = None
        for found, meaning in (
            (zero_or_one, "whole with no bound, so between 0 and 1"),
            (below, "given an upper end below 0 and no lower one, so without a lower end"),
        ):
            if found:
                others = f" and {len(found) - 1} more" if len(found) > 1 else ""
                self.program.notes.append(f"{found[0].name}{others}: {meaning}, as CPLEX reads it")

    def finish(self):
        program = self.program
        if self.goal is not None and self.kinds.get(self.goal) != "N":
            raise Complaint(f"OBJNAME names {self.goal}, which is no row of the kind N")
        for row in self.rows.values():
            self.set_row(row)
        self.finish_variables()
        program.rows, program.goals[0].name = list(self.rows.values()), self.goal or ""
        constant = self.sides.get(self.goal)
        if constant:
            lp.fitted(constant, "the constant of the goal")
            program.goals[0].constant = constant if self.is_glpk else -constant
        others = [name for name, kind in self.kinds.items() if kind == "N" and name != self.goal]
        if others:
            program.notes.append(f"rows of the kind N that aren't the goal {self.goal} restrict nothing and are left out: {', '.join(others)}")
        for section, count in self.passed_over.items():
            program.notes.append(f"lines of {section} that are of other sets than {self.sets[section] or 'that without a name'} were passed over: {count}")
        return program


def section_of(line, where, seen):
    """The section whose heading a line is."""
    word = line.split()[0]
    if word not in SECTIONS:
        if not seen:
            raise Complaint(f"it isn't MPS: {where} begins with {word[:40]!r}, and MPS begins with NAME or ROWS")
        raise Complaint(f"{where}: the section {word[:40]} isn't read; a linear program has {', '.join(SECTIONS)}")
    if word in seen:
        raise Complaint(f"{where}: a second section {word}")
    if word in ("COLUMNS", "RHS", "RANGES", "BOUNDS") and ("ROWS" if word == "COLUMNS" else "COLUMNS") not in seen:
        raise Complaint(f"{where}: {word} stands before {'ROWS' if word == 'COLUMNS' else 'COLUMNS'}")
    return word


def is_of_glpk(lines):
    """Whether the comments at the head are those that GLPK writes, which keeps neither the sense nor the sign of the constant."""
    return any(line.startswith("* Problem:") for line in lines[:3]) and any(line.startswith("* Format:") for line in lines[:9])


def read(text, flags):
    """The program of a text. Of the flags `--free` says that it is free MPS, `--max` that it is to be maximised, and `--glpk` that
    GLPK wrote it, which gives a constant of the goal with its own sign."""
    reader, seen, section, lines = Reader("--free" in flags, "--glpk" in flags), [], None, text.split("\n")
    reader.program.goals[0].maximise = "--max" in flags
    take = {"OBJSENSE": reader.objsense, "OBJNAME": reader.objname, "ROWS": reader.row, "COLUMNS": reader.column, "RHS": reader.side,
            "RANGES": reader.range, "BOUNDS": reader.bound}  # fmt: skip
    for count, whole_line in enumerate(lines, 1):
        line = whole_line.rstrip()
        if not line or line.startswith("*"):
            continue
        reader.where = where = f"line {count}"
        if line[0] in " \t":
            if reader.is_free and not free_tokens(line):
                continue
            if section not in take:
                raise Complaint(f"it isn't MPS: {where} stands in no section" if not seen else f"{where}: no data stand behind {section}")
            take[section](line)
            continue
        section = section_of(line, where, seen)
        seen.append(section)
        rest = line[len(section) :].strip()
        if section == "NAME":
            reader.program.name = rest
        elif rest and section in ("OBJSENSE", "OBJNAME"):
            take[section](rest)
        if section == "ENDATA":
            break
    if section != "ENDATA":
        raise Complaint("it ends without ENDATA, so a part may be missing" if seen else "it isn't MPS: nothing stands in it")
    if "ROWS" not in seen or "COLUMNS" not in seen:
        raise Complaint("it has no ROWS or no COLUMNS")
    program = reader.finish()
    if is_of_glpk(lines):
        note_glpk(reader, flags)
    return program


def note_glpk(reader, flags):
    notes = reader.program.notes
    if "--max" not in flags:
        notes.append("GLPK wrote it and keeps no sense; give --max where the goal is to be maximised")
    if reader.program.goals[0].constant and not reader.is_glpk:
        notes.append("GLPK wrote it, and writes a constant of the goal with its own sign, where MPS has the opposite one; give --glpk")
