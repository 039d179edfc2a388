"""Seats: each has one part at a time solved by a worker and checked, beside whoever divides the program.

Seats stand in rooms: processes of their own, one for each processor at most, so that what is written, read and checked for one part waits for
no other. Only those that wait for a cluster stand in the tool's own process, which has little to do for them.
"""

import multiprocessing
import os
import pickle
import queue
import signal
import subprocess
import sys
import threading
import time
from typing import Callable, NamedTuple, Optional

import parts
from part_workers import WITH_PARENT, Failed, Outcome

SCRIPT = os.path.join(os.path.dirname(os.path.abspath(__file__)), "part_room.py")
LONGEST_CLOSE = 10  # seconds that a room may take to end what it began


class Task:
    """What a seat has: a part that is to be bounded or searched, which `asked` names by its branches; or an instance, by its text."""

    def __init__(self, kind, part, asked):
        self.kind, self.part, self.asked = kind, part, asked
        self.begun, self.is_stopped, self.is_shared = time.monotonic(), False, False


class Answerer:
    """A thread that has one part at a time solved by a worker, which it makes, and checked; `answered` is told what came of each."""

    def __init__(self, instance, checker, make_worker, answered):
        self.instance, self.checker, self.make_worker, self.answered = instance, checker, make_worker, answered
        self.writer, self.worker = parts.Writer(instance), None
        self.given, self.stop = queue.SimpleQueue(), threading.Event()
        threading.Thread(target=self.serve, daemon=True).start()

    def give(self, kind, asked):
        self.stop = threading.Event()
        self.given.put((kind, asked, self.stop))

    def serve(self):
        while True:
            self.answered(self.answer(*self.given.get()))

    def answer(self, kind, asked, stop):
        """An outcome, or why there is none; nothing where the part was stopped before it began."""
        try:
            self.worker = self.worker or self.make_worker()
            return {"bound": self.bound, "search": self.search, "whole": self.solve}[kind](asked, stop)
        except Failed as failure:
            answer = failure
        except Exception as failure:  # told in a line: a seat that ends in silence would be waited for
            answer = Failed(f"{type(failure).__name__}: {failure}")
        if self.worker:
            self.worker.mend()
        return answer

    def bound(self, branches, stop):
        """Of a part without its wholeness; where it is to be divided in place of a point at which it is, for that is all that is needed of it."""
        variables = parts.with_branches(self.instance.variables, branches)
        outcome = self.outcome(self.writer.text(variables, is_relaxed=True, goals=1), stop)
        branch = outcome and outcome.point and parts.branch_at(variables, outcome.point)
        return outcome._replace(branch=branch, point=None) if branch else outcome

    def search(self, asked, stop):
        """Of a part, by its branches and the value of the best point that is known, less being better, or none: what is worse isn't looked for."""
        branches, value = asked
        variables = parts.with_branches(self.instance.variables, branches)
        cutoff = None if value is None else parts.cutoff_of(self.instance, value)
        outcome = self.outcome(self.writer.text(variables, cutoff=cutoff), stop)
        has_tree = cutoff and outcome and outcome.trees and outcome.status != "unbounded"
        return self.without_cutoff(variables, outcome, value, cutoff.size) if has_tree else outcome

    def without_cutoff(self, variables, outcome, value, size):
        """What an outcome of a part with a cutoff shows of the part. That is checked, since sums that fit with the row may not fit without it; where
        it isn't shown nothing is left but the point."""
        goal, column = self.instance.goals[0], len(self.instance.variables) + len(self.instance.rows)
        found = outcome.values[0] if outcome.status == "optimal" else outcome.bound
        bound = parts.turned(goal, value if found is None else min(value, parts.turned(goal, found)))
        status = "bestSoFar" if outcome.point else "unsure"
        try:
            tree = tuple(parts.without_cutoff(node, column, size) for node in outcome.trees[0])
        except parts.Wide:
            tree = (None,)
        claim = parts.Claim(status, outcome.point, None, bound, (tree,), "killed")
        if None in tree or self.checker.line(self.writer.text(variables), parts.result_text(self.instance, claim)) != f"accepted {status} within {bound}":
            return Outcome("unsure", outcome.point, cause=outcome.cause or "killed")
        if outcome.status == "optimal":
            return outcome._replace(trees=(tree,))
        return outcome._replace(status=status, trees=(tree,), bound=bound, cause=outcome.cause or "killed")

    def outcome(self, osil, stop):
        result = self.worker.solve(osil, stop)
        return None if result is None else self.checker.outcome(osil, result)

    def solve(self, osil, stop):
        """Of an instance as it is, with the document."""
        result = self.worker.solve(osil, stop)
        return None if result is None else self.checker.outcome(osil, result)._replace(document=result.document)

    def close(self):
        if self.worker:
            self.worker.close()


class Room:
    """The seats of this process, by their numbers. `answered`: is told the number of a seat, and what came of its part."""

    def __init__(self, instance, checker, makers, answered):
        self.answerers = [Answerer(instance, checker, make, lambda answer, number=number: answered(number, answer)) for number, make in enumerate(makers)]

    def furnish(self):
        pass

    def give(self, number, kind, asked):
        self.answerers[number].give(kind, asked)

    def stop(self, number):
        self.answerers[number].stop.set()

    def close(self):
        for it in self.answerers:
            it.close()


class RoomBeside:
    """A room in a process of its own, which ends with this one. Where it ended before, it is begun anew for the next part."""

    def __init__(self, instance, checker, makers, answered):
        self.setting, self.count, self.answered = pickle.dumps((instance, checker, makers)), len(makers), answered
        self.start()

    def start(self):
        self.link, theirs = multiprocessing.Pipe()
        with theirs:
            self.process = subprocess.Popen([*WITH_PARENT, sys.executable, SCRIPT], stdin=theirs.fileno(), start_new_session=True)
        self.listener = threading.Thread(target=self.listen, daemon=True)
        self.listener.start()

    def furnish(self):
        """Hands over what the process needs, which may wait until it reads: so all are started before."""
        try:
            self.link.send_bytes(self.setting)
        except OSError:  # it ended, which the next part finds
            pass

    def listen(self):
        while True:
            try:
                number, answer = self.link.recv()
            except (EOFError, OSError):
                break
            self.answered(number, answer)
        for number in range(self.count):
            self.answered(number, Failed("its process ended"))

    def tell(self, *order):
        """Whether the process takes an order."""
        try:
            self.link.send(order)
        except OSError:
            return False
        return True

    def give(self, number, kind, asked):
        if self.process.poll() is not None:
            self.close()
            self.start()
            self.furnish()
        if not self.tell("give", number, kind, asked):
            self.answered(number, Failed("its process ended"))

    def stop(self, number):
        self.tell("stop", number)

    def close(self):
        self.tell("close")
        try:
            self.process.wait(LONGEST_CLOSE)
        except subprocess.TimeoutExpired:
            self.process.kill()
            self.process.wait()
        self.listener.join()  # what it tells is of parts that were given before
        self.link.close()


class Place(NamedTuple):
    """Where a seat is to be: the name of its worker, who makes that, and what it takes."""

    name: str
    make: Callable
    kinds: tuple = ("bound", "search")


class Seat:
    """A seat, as whoever divides the program knows it."""

    def __init__(self, place, events):
        self.name, self.kinds, self.events = place.name, place.kinds, events
        self.room: Optional[Room] = None
        self.number = 0
        self.task, self.awaited = None, []
        self.failures, self.until, self.is_out = 0, 0.0, False
        self.worked, self.begun = 0.0, time.monotonic()

    def is_free(self):
        return self.task is None and not self.is_out and time.monotonic() >= self.until

    def give(self, task):
        self.task = task
        self.awaited.append(task)
        self.room.give(self.number, task.kind, task.asked)

    def stop(self):
        """Asks for an end of what the seat has, once."""
        if self.task and not self.task.is_stopped:
            self.task.is_stopped = True
            self.room.stop(self.number)

    def came(self, answer):
        """Takes what came of a task; a process that ends tells of its seats without asking which of them has one."""
        try:
            task = self.awaited.pop()
        except IndexError:
            return
        self.events.put((self, task, answer))


def seated(places, instance, checker, events, kind=RoomBeside):
    """Seats at these places, and their rooms."""
    seats, rooms = [Seat(place, events) for place in places], []
    count = min(len(places), os.cpu_count() or 1)
    for k in range(count):
        own = seats[k::count]
        room = kind(instance, checker, [place.make for place in places[k::count]], lambda number, answer, own=own: own[number].came(answer))
        rooms.append(room)
        for number, seat in enumerate(own):
            seat.room, seat.number = room, number
    for room in rooms:
        room.furnish()
    return seats, rooms


def serve(link):
    """What a room's process does: takes orders from a link until it is closed, and tells what comes of them. The tool itself is asked to end by
    signals, and tells its rooms."""
    for name in (signal.SIGINT, signal.SIGTERM):
        signal.signal(name, signal.SIG_IGN)
    told, room = threading.Lock(), None

    def answered(number, answer):
        with told:
            try:
                link.send((number, answer))
            except OSError:  # the tool is gone, and so is this soon
                pass

    try:
        room = Room(*pickle.loads(link.recv_bytes()), answered)
        while (order := link.recv())[0] != "close":
            getattr(room, order[0])(*order[1:])
    except (EOFError, OSError):
        pass
    if room:
        room.close()
