"""Results that `tools/certify` of a checkout makes: solvers that work with floats find them, and a certificate shows them."""

from __future__ import annotations

import math
import subprocess
import sys
from pathlib import Path
from typing import Optional

from .errors import NoProgram, NotSent, ProgramFailed
from .program import begun, held_files

TOOL = Path(__file__).resolve().parents[3] / "tools/certify"
MOST_SECONDS = 999_999  # that the tool takes
SHOWN, NOTHING_SHOWN = 0, 1  # its statuses


def certified(osil: str, seconds: Optional[float]) -> Optional[str]:
    """The result document that the tool makes of an instance, whose claim a checker on this machine accepted; none where it shows nothing.

    Raises `NoProgram` where the tool isn't there, and `ProgramFailed` where it couldn't do its work.
    """
    if not TOOL.is_file():
        raise NoProgram(f"there is no {TOOL}, which makes certificates: this package doesn't stand in a checkout")
    with held_files(**{"model.osil": osil}) as folder:
        path = Path(folder, "result.osrl")
        limit = [] if seconds is None or seconds == math.inf else ["--seconds", str(min(max(math.ceil(seconds), 1), MOST_SECONDS))]
        with begun(sys.executable, str(TOOL), f"{folder}/model.osil", "--result", str(path), *limit, errors=subprocess.PIPE) as process:
            _, err = process.communicate()
        if process.returncode not in (SHOWN, NOTHING_SHOWN):
            lines = err.decode(errors="replace").strip().splitlines()
            raise ProgramFailed(f"{TOOL} ended with status {process.returncode}: {lines[-1] if lines else 'it said nothing'}", process.returncode)
        if process.returncode == NOTHING_SHOWN:
            return None
        try:
            return path.read_text(encoding="utf-8")
        except OSError as failure:
            raise NotSent(f"the result of {TOOL} can't be read: {failure.strerror}") from failure
