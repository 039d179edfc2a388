"""A client of Gubnatris, the solver service for linear and mixed-integer programs. It needs nothing but Python 3.11 or later.

    >>> from pathlib import Path
    >>> from gubnatris import Server
    >>> server = Server("http://127.0.0.1:8080")
    >>> result = server.solve(Path("examples/diet.osil"))
    >>> result.status, result.objective, result.values[3]
    ('optimal', Fraction(552, 275), Fraction(52, 11))

`solve` comes back when the search is over, or was stopped after some seconds. In its steps, `submit` hands the instance over and
comes back with the job's name, `wait` asks until the job is finished, and `result` reads it, as often as is wanted, until `kill`
gives it up. `Program` solves on this machine instead, without a server.

An instance is a `Model`, the text of an OSiL document, or the `Path` of a file with one. All numbers of a result are exact fractions,
read from its certificate; `Result.document` is the whole text, for `os check`, and `Result.check()` asks that. Whatever goes wrong is an
`Error` of this package.
"""

from __future__ import annotations

from .errors import (
    BadModel, Error, Fault, NoProgram, NoReply, NotFinished, NotInstance, NotOffered, NotReached, NotSent, ProgramFailed, Refused, Status,
    TimedOut,
)  # fmt: skip
from .exact import Number
from .model import Model, Variable
from .program import Program, solver
from .results import Result, Slack, read_result
from .server import Jobs, Server
from .sources import names

__all__ = [
    "BadModel", "Error", "Fault", "Jobs", "Model", "NoProgram", "NoReply", "NotFinished", "NotInstance", "NotOffered", "NotReached", "NotSent",
    "Number", "Program", "ProgramFailed", "Refused", "Result", "Server", "Slack", "Status", "TimedOut", "Variable", "names", "read_result",
    "solver",
]  # fmt: skip
