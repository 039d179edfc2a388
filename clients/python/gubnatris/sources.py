"""Instances as they are given: a text, a file or a model; and what a result has to be read against."""

from __future__ import annotations

from dataclasses import dataclass, field
from functools import cached_property
from pathlib import Path
from typing import Optional, Union

from .errors import NoReply, NotSent
from .instances import Instance, read_instance
from .limits import MOST_COLUMNS, MOST_DOCUMENT
from .model import EndRow, Model
from .trees import below, parsed

Given = Union[str, Path, Model]


@dataclass
class Source:
    """The instance that a result is of. Where its text isn't what was meant to the letter, since some fractions are no decimals: by what
    each row and goal is multiplied there, and which rows stand behind its own for ends of variables."""

    text: str
    model: Optional[Model] = None
    row_scales: list[int] = field(default_factory=list)
    goal_scales: list[int] = field(default_factory=list)
    end_rows: list[EndRow] = field(default_factory=list)

    @cached_property
    def instance(self) -> Instance:
        """What the instance says. Raises `NotInstance` where the text is none."""
        return self.model.instance if self.model else read_instance(self.text)


def instance_text(given: Union[str, Path]) -> str:
    """The text of an instance."""
    if isinstance(given, str):
        return given
    try:
        with open(given, "rb") as file:
            held = file.read(MOST_DOCUMENT + 1)
    except OSError as failure:
        raise NotSent(f"{given} can't be read: {failure.strerror}") from failure
    if len(held) > MOST_DOCUMENT:
        raise NotSent(f"{given} is too long: an instance has at most {MOST_DOCUMENT} bytes")
    try:
        return held.decode("utf-8-sig")
    except UnicodeDecodeError as failure:
        raise NotSent(f"{given} isn't UTF-8: byte {failure.start}") from failure


def source_of(given: Given) -> Source:
    """What is sent for an instance. Raises `NotSent` where a file can't be read, and `BadModel` where a model is none."""
    if isinstance(given, Model):
        written = given.written()
        return Source(written.text, given, written.row_scales, written.goal_scales, written.end_rows)
    return Source(instance_text(given))


def names(given: Given) -> list[str]:
    """The names of an instance's variables, in their order; `x3` of variable 3 where it has none, or shares its element with others.

    Raises `NotSent` where it is no instance.
    """
    if isinstance(given, Model):
        return [variable.name or f"x{number}" for number, variable in enumerate(given.variables)]
    try:
        variables = below(parsed(instance_text(given), b""), "instanceData", "variables", "var")
    except NoReply as failure:
        raise NotSent(f"no instance: {failure.why}") from failure
    found: list[str] = []
    for variable in variables:
        copies = variable.get("mult", "1").strip().lstrip("+")
        if not copies.isdecimal() or len(copies) > 8 or len(found) + int(copies) > MOST_COLUMNS:
            raise NotSent(f"no instance: more than {MOST_COLUMNS} variables, or no number of them")
        own = variable.get("name") if int(copies) == 1 else None
        found += [own or f"x{number}" for number in range(len(found), len(found) + int(copies))]
    return found
