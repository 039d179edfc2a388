"""The command `solve_apart`: its words, its folder, and what it writes."""

import os
import queue
import shutil
import signal
import sys
import tempfile
import time
from functools import partial

sys.path.insert(1, os.path.join(os.path.dirname(os.path.abspath(__file__)), "..", "clients", "python"))

import gubnatris
import job_documents
import parts
import slurm_workers
from apart import Book, Division
from linear_program import MOST_DOCUMENT, Complaint, Unread, printable, read_bytes, write_whole
from part_seats import Place, Room, Task, seated
from part_workers import LONGEST_STOP, Checker, Failed, Jobs, LocalWorker, ServerWorker
from slurm_workers import SlurmQueue, SlurmWorker

USAGE = """usage: tools/solve_apart MODEL [--servers URL,.. | --workers N | --slurm] [--seconds N] [--share N] [--folder DIR] [--output OSRL] [--quiet]
    --workers N    solves on this machine, so many parts at once, 1 to 64; without it and --servers, one for each processor
    --servers URL  solves at these servers, each so many parts at once as --workers says, two where nothing is said
    --slurm        solves by a cluster of Slurm, so many parts at once as --workers says, as it has processors where nothing is said
    --seconds N    ends after so many seconds with the best point, and a bound
    --share N      a search of a part that runs so many seconds ends where others wait, 2 where nothing is said; with --slurm a task ends
                   with what it has after so many, 60 where nothing is said
    --folder DIR   keeps there what was found of the parts; a later run goes on with it. MODEL.parts, which is removed at the end, where none is named
    --output OSRL  writes the result there, and not to the standard output
    --quiet        says nothing while it works"""
BOUNDING = 2  # seats of this machine that bound and divide parts for a cluster
PARTS_FOR_EACH = 3  # parts that a cluster's program is divided into, for each seat
MOST_SEATS = 64
MOST_RESULT = MOST_DOCUMENT
NO_CLAIM = parts.result_text(None, parts.Claim("unsure", cause="killed"))
VALUES = {"workers", "servers", "seconds", "share", "folder", "output"}
STATUS = {"words": 2, "read": 3, "write": 4}


class Words:
    """What the command's words ask for."""

    def __init__(self, words):
        self.model, self.is_quiet, self.is_slurm, given = None, False, False, {}
        words = iter(words)
        for word in words:
            name, equals, value = word.removeprefix("--").partition("=")
            if word == "--quiet":
                self.is_quiet = True
            elif word == "--slurm":
                self.is_slurm = True
            elif word.startswith("--"):
                if name not in VALUES or name in given:
                    raise ValueError(word)
                given[name] = value if equals else next(words)
            elif self.model is None:
                self.model = word
            else:
                raise ValueError(word)
        self.servers = [url for url in given.get("servers", "").split(",") if url]
        if self.model is None or self.is_slurm and self.servers or "servers" in given and not self.servers:
            raise ValueError("MODEL")
        self.workers = number(given.get("workers"), 1, 64) or (None if self.is_slurm else 2 if self.servers else os.cpu_count() or 1)
        self.seconds, self.share = number(given.get("seconds"), 1, 10**7), number(given.get("share"), 1, 10**7) or (60 if self.is_slurm else 2)
        self.folder, self.output, self.is_own = given.get("folder") or f"{self.model}.parts", given.get("output"), "folder" not in given


def number(text, least, most):
    """A whole number within its ends, or none where there is no text."""
    if text is None:
        return None
    if not text.isdecimal() or len(text) > 8 or not least <= int(text) <= most:
        raise ValueError(text)
    return int(text)


class Solving:
    """One run of the command."""

    def __init__(self, words):
        self.words, self.begun, self.seats, self.rooms = words, time.monotonic(), [], []
        self.events = queue.SimpleQueue()
        self.until = self.begun + words.seconds if words.seconds else float("inf")
        self.division = None

    def say(self, text):
        if not self.words.is_quiet:
            print(printable(f"{time.monotonic() - self.begun:8.1f} s  {text}"), file=sys.stderr, flush=True)

    def end_early(self, *_):
        self.until = min(self.until, time.monotonic())

    def run(self):
        """Solves, and writes; the status."""
        for name in (signal.SIGTERM, signal.SIGINT):
            signal.signal(name, self.end_early)
        osil = read_bytes(self.words.model, MOST_DOCUMENT)
        with tempfile.TemporaryDirectory() as scratch:
            checker = Checker(scratch)
            line = checker.line(osil.decode("utf-8", "surrogateescape"), NO_CLAIM)
            if line != "refused NoClaim":
                raise Complaint(line.removeprefix("refused Instance ") or "the program's check says nothing")
            self.instance = job_documents.instance_of(self.words.model)
            os.makedirs(self.words.folder, exist_ok=True)
            try:
                return self.solve(osil, checker)
            finally:
                for room in self.rooms:
                    room.close()

    def sit(self, places, checker, *kind):
        seats, rooms = seated(places, self.instance, checker, self.events, *kind)
        self.seats += seats
        self.rooms += rooms

    def start_seats(self, checker):
        jobs = Jobs(os.path.join(self.words.folder, "jobs"))
        left = jobs.give_up_left()
        if left:
            self.say(f"{left} jobs of a run that was killed are given up")
        if self.words.is_slurm:
            tasks = SlurmQueue(self.words.folder, self.words.share)
            count = self.words.workers or min(MOST_SEATS, slurm_workers.processors())
            self.sit([Place("Slurm", partial(SlurmWorker, tasks), ("search",))] * count, checker, Room)
            self.sit([Place(f"worker {k + 1}", LocalWorker, ("bound",)) for k in range(BOUNDING)], checker)
        elif self.words.servers:
            self.sit([Place(url, partial(ServerWorker, url, jobs)) for _ in range(self.words.workers) for url in self.words.servers], checker)
        else:
            self.sit([Place(f"worker {k + 1}", LocalWorker) for k in range(self.words.workers)], checker)

    def solve(self, osil, checker):
        book = Book(self.words.folder, osil)
        self.start_seats(checker)
        if not parts.is_divisible(self.instance.variables):
            self.say("no whole variable, and none that may be 0 besides: it isn't divided")
            return self.solve_whole(osil)
        coarse = PARTS_FOR_EACH * sum("search" in seat.kinds for seat in self.seats) if self.words.is_slurm else None
        self.division = Division(self.instance, book, self.seats, self.events, self.say, self.words.share, coarse)
        self.division.run(lambda: self.until, filter(partial(self.is_feasible, osil, checker), book.points))
        book.close()
        if self.division.is_endless_later:
            self.say("a later goal has no end: it isn't divided")
            return self.solve_whole(osil)
        return self.write(self.division.claim(), osil, checker)

    def is_feasible(self, osil, checker, point):
        """Whether a point of the folder is one of the instance."""
        text = parts.result_text(self.instance, parts.Claim("bestSoFar", point, cause="killed"))
        return checker.line(osil.decode("utf-8", "surrogateescape"), text).startswith("accepted")

    def solve_whole(self, osil):
        """Solves the instance as it is, by the first seat that answers rightly."""
        for seat in self.seats:
            seat.give(Task("whole", None, osil.decode("utf-8-sig")))
            answer = self.answer_of(seat)
            if isinstance(answer, Failed):
                self.say(f"{seat.name}: {answer}")
            elif answer is not None:
                write_whole(answer.document, self.words.output)
                self.tell(f"{answer.status}, undivided", True)
                return 0 if answer.status != "unsure" else 1
            if time.monotonic() >= self.until:
                break
        self.tell("nobody solved it", True)
        return 6

    def answer_of(self, seat):
        """What comes of a seat's task, which is stopped once it is time to end; none where nothing comes of it."""
        last = float("inf")
        while time.monotonic() < last:
            try:
                return self.events.get(timeout=0.05)[-1]
            except queue.Empty:
                pass
            if time.monotonic() >= self.until and not seat.task.is_stopped:
                seat.stop()
                last = time.monotonic() + LONGEST_STOP
        return None

    def joined(self, claim, check):
        """The joined result as far as one document has room for it, what the check says of it, and what is left out: of a longer one the
        multipliers of variables, which those of rows decide, and else its tree."""
        text = parts.result_text(self.instance, claim)
        if len(text.encode()) <= MOST_RESULT:
            return text, check(text), ""
        text = parts.result_text(self.instance, claim.by_rows(len(self.instance.variables)))
        line = check(text) if len(text.encode()) <= MOST_RESULT else ""
        if line.startswith("accepted"):
            return text, line, ""
        note = f"{claim.status} by its parts, but the joined result has {len(text.encode()):,} bytes, past {MOST_RESULT:,}"
        note = f"{claim.status} by its parts, but the joined result by rows alone is {line}" if line else note
        status = "bestSoFar" if claim.point is not None else "unsure"
        text = parts.result_text(self.instance, parts.Claim(status, claim.point, cause="length"))
        return text, check(text), f"{note}: it is written without its tree; "

    def write(self, claim, osil, checker):
        """Writes the joined result, and says what the check makes of it."""
        instance = osil.decode("utf-8", "surrogateescape")
        text, line, note = self.joined(claim, lambda text: checker.line(instance, text))
        is_right = line.startswith("accepted")
        write_whole(text, self.words.output)
        said = f"unsure, {claim.cause}" if claim.status == "unsure" and line == "refused NoClaim" else line
        self.tell(f"{note}{said}{self.numbers(claim)}", is_right and claim.status in ("optimal", "infeasible", "unbounded") and not note)
        return 0 if is_right and not note else 1

    def numbers(self, claim):
        found = self.division.counts
        values = "" if claim.point is None else " " + ", ".join(map(str, parts.values_at(self.instance, claim.point)))
        bound = "" if claim.bound is None else f", none better than {claim.bound} by the parts' bounds"
        return f"{values}{bound}; {found['divided']} divided, {found['bound']} bounded, {found['search']} searched, seats busy {self.division.busy():.2f}, own work {time.process_time():.1f} s"

    def tell(self, text, is_ended):
        """The last line. The folder goes where all is known and nobody named it."""
        stays = not (is_ended and self.words.is_own)
        if not stays:
            shutil.rmtree(self.words.folder, ignore_errors=True)
        where = f"; {self.words.folder} has the parts" if stays else ""
        print(printable(f"solve_apart: {text}; {time.monotonic() - self.begun:.1f} s{where}"), file=sys.stderr)


def main(words):
    try:
        asked = Words(words)
        for url in asked.servers:
            gubnatris.Server(url)
    except (ValueError, StopIteration):
        print(USAGE, file=sys.stderr)
        return STATUS["words"]
    try:
        return Solving(asked).run()
    except Unread as failure:
        print(f"solve_apart: {failure}", file=sys.stderr)
        return STATUS["read"]
    except (Complaint, Failed) as failure:
        print(printable(f"solve_apart: {asked.model}: {failure}"), file=sys.stderr)
        return 1
    except OSError as failure:
        print(printable(f"solve_apart: {failure.strerror or failure}: {failure.filename or ''}".lower().rstrip(": ")), file=sys.stderr)
        return STATUS["write"]
