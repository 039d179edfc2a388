"""The program on this machine: it solves and checks without a server."""

from __future__ import annotations

import contextlib
import os
import shutil
import signal
import subprocess
import tempfile
import threading
import warnings
from pathlib import Path
from typing import Callable, Iterator, Optional, Union

from .errors import NoProgram, NotSent, ProgramFailed
from .options import Gap, find_not_offered, gap_text, options_text
from .results import Result, document_of, read_of_job
from .server import Server
from .sources import Given, Source, source_of
from .starts import Start, first_values

STATUSES = {
    2: "it doesn't know the words that it was given, so it is another program, or another version",
    3: "it couldn't read a file",
    4: "it couldn't write its answer",
    5: "there was no memory",
}
INTERRUPTS = [getattr(signal, name) for name in ("SIGHUP", "SIGINT", "SIGTERM") if hasattr(signal, name)]
ENDS_WITHIN = 5.0  # seconds that a program has to end by itself


class Program:
    """The program on this machine.

    `path`: where it is. Without one it is the one that the environment names (`OS_PROGRAM`), else `./os` of the checkout that this package
    stands in, else `gubnatris` or `os_main` on the `PATH`. Raises `NoProgram` where there is none.
    """

    def __init__(self, path: Union[str, Path, None] = None):
        self.path = _found(path)

    def solve(
        self,
        instance: Given,
        *,
        node_limit: Optional[int] = None,
        turn_limit: Optional[int] = None,
        rounds: Optional[int] = None,
        names: bool = False,
        form: Optional[str] = None,
        seconds: Optional[float] = None,
        result: Union[str, Result, None] = None,
        bound: bool = False,
        gap: Gap = None,
        fast: bool = False,
        start: Start = None,
    ) -> Result:
        """Solves an instance. The options are those of `Server.solve`.

        Raises `Refused` where the instance or a limit is, and `ProgramFailed`.
        """
        find_not_offered(fast)
        source = source_of(instance)
        limits = (node_limit, turn_limit, rounds, names, form, bound, gap_text(gap, source), seconds, first_values(start, instance))
        return self._solve(source, options_text(None, *limits, document_of(result)))

    def check(self, instance: Given, document: str) -> str:
        """What the checker says of a result document: `accepted` and the kind of claim, or `refused` and the first reason."""
        with held_files(osil=source_of(instance).text, osrl=document) as folder:
            return self._ran("check", f"{folder}/osil", f"{folder}/osrl").strip()

    def _solve(self, source: Source, options: str) -> Result:
        with held_files(osil=source.text, osol=options) as folder:
            return read_of_job(self._ran("solve", f"{folder}/osil", *(["--options", f"{folder}/osol"] if options else [])), "the job", source)

    def _ran(self, *words: str) -> str:
        """What the program writes. It is ended where this is interrupted."""
        with self._begun(*words, errors=subprocess.PIPE) as process:
            out, err = process.communicate()
        if process.returncode not in (0, 1) or not out:
            raise self._failure(process.returncode, err.decode(errors="replace"))
        return out.decode()

    def _failure(self, status: int, told: str) -> ProgramFailed:
        lines = told.strip().splitlines()
        why = lines[-1] if lines else STATUSES.get(status, "it was killed" if status < 0 else "it isn't the program, or another version")
        return ProgramFailed(f"{self.path} ended with status {status}: {why}", status)

    @contextlib.contextmanager
    def _begun(self, *words: str, errors: Optional[int] = None) -> Iterator[subprocess.Popen[bytes]]:
        """The program while it runs; it is ended where this is left."""
        _warn_of_build(Path(self.path))
        with begun(self.path, *words, errors=errors) as process:
            yield process


@contextlib.contextmanager
def begun(*words: str, errors: Optional[int] = None) -> Iterator[subprocess.Popen[bytes]]:
    """A program while it runs; it is ended where this is left. A signal that comes while it is begun waits, so that it isn't lost sight of."""
    process = None
    try:
        with held_signals() as let_go:
            process = subprocess.Popen(words, stdin=subprocess.DEVNULL, stdout=subprocess.PIPE, stderr=errors, preexec_fn=let_go)
    except OSError as failure:
        raise NoProgram(f"{words[0]} can't be run: {failure.strerror}") from failure
    except BaseException:
        if process:
            _end(process)
        raise
    try:
        yield process
    finally:
        _end(process)


def solver(server: Optional[str] = None) -> Union[Server, Program]:
    """What solves, as the environment says: the server that is named here or by `OS_SERVER`, else the program on this machine.

    `OS_USER` and `OS_PASSWORD` are for a proxy that asks for them. Raises `ValueError` where the name is no URL.
    """
    url = server or os.environ.get("OS_SERVER")
    if not url:
        return Program()
    return Server(url, user=os.environ.get("OS_USER"), password=os.environ.get("OS_PASSWORD", ""))


def _found(path: Union[str, Path, None]) -> str:
    named = str(path) if path is not None else os.environ.get("OS_PROGRAM")
    if named:
        found = shutil.which(named)
        if not found:
            raise NoProgram(f"{named} is no program that can be run")
        return os.path.abspath(found)
    checkout = Path(__file__).resolve().parents[3]
    if (checkout / "crates.txt").is_file() and os.access(checkout / "os", os.X_OK):
        return str(checkout / "os")
    for name in ("gubnatris", "os_main"):
        found = shutil.which(name)
        if found:
            return found
    raise NoProgram("there is no program: set OS_PROGRAM to it, put gubnatris on the PATH, or name a server by OS_SERVER")


def _warn_of_build(path: Path) -> None:
    """Warns where the program is `./os` of a checkout that has none built yet, since nothing is seen of that build."""
    if path.name == "os" and (path.parent / "crates.txt").is_file() and not (path.parent / "crates/os_main/out/os_main").is_file():
        warnings.warn(f"{path} first proves and builds the program, which takes many minutes; OS_PROGRAM names one that is there", stacklevel=2)


@contextlib.contextmanager
def used_folder(prefix: str) -> Iterator[str]:
    """A folder, while it is used. Signals wait while it is made and while it is removed, so that neither is left half done."""
    made: Optional[tempfile.TemporaryDirectory[str]] = None
    try:
        with held_signals():
            made = tempfile.TemporaryDirectory(prefix=prefix)
        yield made.name
    finally:
        if made:
            with held_signals():
                made.cleanup()


@contextlib.contextmanager
def held_files(**texts: str) -> Iterator[str]:
    """A folder with these texts, while it is used."""
    with contextlib.ExitStack() as stack:
        try:
            folder = stack.enter_context(used_folder("gubnatris-"))
            for name, text in texts.items():
                Path(folder, name).write_text(text, encoding="utf-8", newline="")
        except (OSError, UnicodeEncodeError) as failure:
            raise NotSent(f"no file can be written for the program: {failure}") from failure
        yield folder


@contextlib.contextmanager
def held_signals() -> Iterator[Optional[Callable[[], object]]]:
    """While this is used signals wait; what it gives lets them go, for a child that would inherit that. Nothing waits where signals can't,
    nor beside the main thread, which alone they interrupt."""
    if not hasattr(signal, "pthread_sigmask") or threading.current_thread() is not threading.main_thread():
        yield None
        return
    before = signal.pthread_sigmask(signal.SIG_BLOCK, INTERRUPTS)
    try:
        yield lambda: signal.pthread_sigmask(signal.SIG_SETMASK, before)
    finally:
        signal.pthread_sigmask(signal.SIG_SETMASK, before)


def _end(process: subprocess.Popen[bytes]) -> None:
    """Ends a process that still runs, and what it wrote is dropped."""
    if process.poll() is None:
        process.terminate()
        try:
            process.wait(ENDS_WITHIN)
        except subprocess.TimeoutExpired:
            process.kill()
            process.wait()
    for stream in (process.stdout, process.stderr):
        if stream:
            stream.close()
