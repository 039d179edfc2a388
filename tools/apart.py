"""Solves a program by its parts, best bound first (Land and Doig 1960), each part by whoever is free, and joins what shows the whole.

A part is *bounded* by its instance without wholeness: the multipliers of that one leaf bound it, and its point says where it is divided.
It may also be *searched* whole, for what isn't worse than the best point: where a seat has nothing else to do, where it can't be bounded or
divided, for a cluster, once there are enough parts, and else for as long as the searches that left their parts open took little of the time.
Whatever is known first closes it, and what runs for it or below it is stopped: a better point that its bound doesn't pass, a search, or the
cases below it.
"""

import hashlib
import heapq
import itertools
import json
import os
import queue
import time
from fractions import Fraction
from typing import NamedTuple, Optional

import parts
from part_seats import Task
from part_workers import Failed, Outcome, Wrong

PLUNGE_WITHOUT, PLUNGE_WITH = 2, 8  # each so many-th part is the deepest one, without and with a point
MOST_FAILURES = 5
MOST_LOST = 0.5  # of the time that bounding took, how much searches may take that came to nothing
LONGEST_WAIT = 10.0  # seconds for which a seat that failed isn't asked
TELL_EVERY = 10.0  # seconds between two lines that say how far it is


class Closed(NamedTuple):
    """What closes a part: the values of its best point, less being better, or none where no point is feasible; and a tree for each level."""

    values: Optional[tuple]
    trees: tuple


class Part:
    """A part of the program. Its name says by which cases it is reached: `r`, then 0 for each first case and 1 for each second."""

    def __init__(self, name, branches=(), parent=None):
        self.name, self.branches, self.parent = name, branches, parent
        self.bound: Optional[Fraction] = None
        self.leaf: tuple = ()
        self.branch = self.closed = None
        self.children: list = []
        self.is_bounding = self.is_searched = self.is_whole = self.is_stuck = False
        self.failures = 0

    def line(self):
        """The part and those above it."""
        part = self
        while part is not None:
            yield part
            part = part.parent

    def is_done(self):
        return any(part.closed for part in self.line())

    def key(self):
        """The best bound of the part and of those above it, or none."""
        return max((part.bound for part in self.line() if part.bound is not None), default=None)

    def raise_bound(self, bound, leaf):
        """Takes a bound, with what shows it, where it is better than what is known; whether it is."""
        is_better = self.bound is None or bound > self.bound
        if is_better:
            self.bound, self.leaf = bound, leaf
        return is_better


class Book:
    """What was found of the parts of one program, in a folder: a line for each find. A line that was cut short by a kill is passed over."""

    def __init__(self, folder, osil):
        self.path, self.entries, self.points = os.path.join(folder, "found"), {}, []
        head = json.dumps({"instance": hashlib.sha256(osil).hexdigest()})
        lines = self.lines()
        if lines and lines[0] != head:
            raise Failed(f"{self.path} is of another instance; name another folder, or remove it")
        for line in lines[1:]:
            self.take(line)
        self.file = open(self.path, "a" if lines else "w", encoding="utf-8")
        self.file.write("\n" if lines else head + "\n")
        self.file.flush()

    def lines(self):
        try:
            with open(self.path, encoding="utf-8", errors="replace") as file:
                return file.read().splitlines()
        except FileNotFoundError:
            return []

    def take(self, line):
        try:
            entry = json.loads(line)
            if "point" in entry:
                self.points.append(tuple(map(Fraction, entry["point"])))
            else:
                self.entries.setdefault(entry["part"], {}).update(entry)
        except (ValueError, KeyError, TypeError, AttributeError):
            pass

    def write(self, entry):
        self.file.write(json.dumps(entry) + "\n")
        self.file.flush()

    def close(self):
        self.file.close()


def middle_branch(variables):
    """A branch where no point says one: of the first variable that may be divided, at the middle of its ends."""
    for place, it in enumerate(variables):
        if it.zero:
            return parts.Branch(place, None)
        if it.whole and it.low is not None and it.high is not None and it.low < it.high:
            return parts.Branch(place, (it.low + it.high).__floor__() // 2)
    return None


class Division:
    """One program, its parts and who solves them. `share`: for how many seconds a search is left alone; `coarse`: into how many parts the
    program is divided before they are searched, where they are."""

    def __init__(self, instance, book, seats, events, say, share=2.0, coarse=None):
        self.instance, self.book, self.say = instance, book, say
        self.seats, self.events, self.share, self.coarse = seats, events, share, coarse
        self.root = Part("r")
        self.best = self.point = self.endless = self.cause = None
        self.is_endless_later = False
        self.heap, self.deep, self.whole, self.order = [], [], [], itertools.count()
        self.open: dict = {}
        self.spent, self.lost = 0.0, 0.0  # seconds of seats that bounded, and of those that searched and found no end
        self.picks, self.counts, self.told = 0, {"bound": 0, "search": 0, "divided": 0}, time.monotonic()

    # ---- what is known

    def offer(self, point):
        """A point that was shown to be feasible."""
        values = parts.turned_values(self.instance, parts.values_at(self.instance, point))
        if self.best is None or values < self.best:
            self.best, self.point = values, tuple(point)
            self.book.write({"point": list(map(str, point))})
            self.say(f"a point with {', '.join(map(str, parts.values_at(self.instance, point)))}")
            self.stop_settled()

    def stop_settled(self):
        """Stops what runs for parts that are closed, or passed."""
        for seat in self.seats:
            if seat.task and self.is_settled(seat.task.part):
                seat.stop()

    def is_passed(self, part):
        """Whether the bound of a part, or of one above it, closes it by the best point."""
        key = part.key()
        if self.best is None or key is None:
            return False
        return key >= self.best[0] if len(self.instance.goals) == 1 else key > self.best[0]

    def is_settled(self, part):
        return part.is_done() or self.is_passed(part)

    def push(self, part):
        key = part.key()
        near = float("-inf") if key is None else float(key)
        self.open[part.name] = part
        heapq.heappush(self.heap, (near, next(self.order), part))
        heapq.heappush(self.deep, (-len(part.name), near, next(self.order), part))

    def close(self, part, values, trees, is_kept=True):
        part.closed = Closed(values, trees)
        self.open.pop(part.name, None)
        if is_kept:
            shown = None if values is None else list(map(str, values))
            self.book.write({"part": part.name, "closed": shown, "trees": trees})
        self.stop_settled()

    def divide(self, part):
        self.counts["divided"] += 1
        self.open.pop(part.name, None)
        part.children = [Part(f"{part.name}{side}", (*part.branches, (part.branch, side)), part) for side in (0, 1)]
        for child in part.children:
            self.resume(child)

    # ---- what was kept

    def resume(self, part):
        """A part as the folder has it, or as one of which nothing is known."""
        entry = self.book.entries.get(part.name, {})
        if "branch" in entry:
            part.branch = parts.Branch(*entry["branch"])
        if "bound" in entry:
            part.bound, part.leaf = Fraction(entry["bound"]), tuple(entry["leaf"])
        if "closed" in entry:
            values = None if entry["closed"] is None else tuple(map(Fraction, entry["closed"]))
            self.close(part, values, tuple(map(tuple, entry["trees"])), is_kept=False)
        else:
            self.push(part)

    # ---- what is to be done

    def next_open(self):
        """The next part that is to be bounded. Parts that are bounded are divided on the way to it. Those that are held go back to where they
        were taken from, so that none is there more often than it was."""
        self.picks += 1
        every, held, found = PLUNGE_WITHOUT if self.best is None else PLUNGE_WITH, [], None
        while self.heap and not found:
            heap = self.deep if self.deep and self.picks % every == 0 else self.heap
            entry = heapq.heappop(heap)
            part = entry[-1]
            if part.children or part.is_bounding or part.is_stuck or part.is_whole or part.name not in self.open:
                continue
            if self.is_settled(part):
                self.open.pop(part.name)
            elif part.branch is None:
                found = part
            elif self.is_held(part):
                held.append((heap, entry))
            else:
                self.divide(part)
        for heap, entry in held:
            heapq.heappush(heap, entry)
        return found

    def is_held(self, part):
        """Whether a part isn't divided for now: it is searched just now, and others wait; or, where the program is divided coarsely, it is searched,
        or there are enough that wait."""
        tasks = [seat.task for seat in self.seats if seat.task]
        searched = [task.part for task in tasks if task.kind == "search"]
        if self.coarse:
            return part in searched or (not part.is_searched and len(self.open) - len(searched) >= self.coarse)
        return part in searched and part is not self.root and len(self.open) > sum(task.part.name in self.open for task in tasks)

    def is_point_due(self):
        """Whether no point is known, and a part waits for its search whose relaxed point is one."""
        return self.best is None and any(part.bound is not None for part in self.whole[-1:])

    def is_search_due(self):
        """Whether there is time for a search where parts wait to be bounded: a point excludes much, and those that came to nothing took little."""
        running = sum(bool(seat.task) and seat.task.kind == "search" for seat in self.seats)
        return self.best is not None and not self.coarse and self.lost + self.share * (running + 1) <= MOST_LOST * self.spent

    def next_search(self):
        """A part to search: one that can't be divided, or else the best one that wasn't searched."""
        while self.whole:
            part = self.whole.pop()
            if not self.is_settled(part):
                return part
        if self.coarse and len(self.open) < self.coarse and self.is_bounding():
            return None
        waiting = [part for part in self.open.values() if not part.is_searched and not part.is_stuck and not part.is_whole]
        waiting = [part for part in waiting if part.branch is not None or part is self.root]
        return min(waiting, key=lambda part: (part.key() is not None, part.key() or 0), default=None) if waiting else None

    def is_bounding(self):
        return any(seat.task and seat.task.kind == "bound" for seat in self.seats)

    def next_task(self, seat):
        if "search" in seat.kinds and not self.coarse and not self.root.is_searched and not self.is_settled(self.root):
            self.root.is_searched = True  # what is small is solved sooner so than by its parts
            return self.search_of(self.root)
        if "search" in seat.kinds and (self.is_point_due() or self.is_search_due()):
            part = self.next_search()
            if part:
                part.is_searched = True
                return self.search_of(part)
        if "bound" in seat.kinds:
            part = self.next_open()
            if part:
                part.is_bounding = True
                return Task("bound", part, part.branches)
        if "search" in seat.kinds:
            part = self.next_search()
            if part:
                part.is_searched = True
                return self.search_of(part)
        return self.task_again()

    def search_of(self, part):
        """A search of a part, for what isn't worse than the best point; of one that has to be searched to its end for all, by its own rows, since one
        row more may make its numbers too wide."""
        return Task("search", part, (part.branches, self.best[0] if self.best and not part.is_whole else None))

    def task_again(self):
        """The bounding that has taken longest, once more, where its seat may be slow."""
        late = [task for task in self.late_tasks() if not task.is_shared]
        if not late:
            return None
        task = min(late, key=lambda it: it.begun)
        task.is_shared = True
        again = Task("bound", task.part, task.asked)
        again.is_shared = True
        return again

    def late_tasks(self):
        tasks = [seat.task for seat in self.seats if seat.task and seat.task.kind == "bound"]
        return [task for task in tasks if time.monotonic() - task.begun > max(self.share, 1.0)]

    def give_work(self):
        for seat in self.seats:
            if seat.is_free():
                task = self.next_task(seat)
                if task:
                    seat.give(task)
        if not self.coarse and (self.late_tasks() or not any(seat.is_free() for seat in self.seats)):
            self.make_room()

    def make_room(self):
        """Where parts wait for a seat, or for a worker behind one, searches that had their share are stopped."""
        if not self.open:
            return
        now = time.monotonic()
        for seat in self.seats:
            task = seat.task
            if task and task.kind == "search" and not task.part.is_whole and now - task.begun > self.share:
                seat.stop()

    # ---- what came

    def take(self, seat, task, answer):
        """Takes what came of a task, and counts the time that it took: a search that left its part open is lost."""
        seat.task = None
        took = time.monotonic() - task.begun
        seat.worked += took
        self.take_answer(seat, task, answer)
        if task.kind == "bound":
            self.spent += took
        elif not self.is_settled(task.part):
            self.lost += took

    def take_answer(self, seat, task, answer):
        if task.kind == "bound":
            task.part.is_bounding = any(it.task and it.task.part is task.part and it.task.kind == "bound" for it in self.seats)
        if isinstance(answer, Failed):
            self.take_failure(seat, task, answer)
            return
        seat.failures = 0
        if isinstance(answer, Outcome):
            self.counts[task.kind] += 1
            if task.kind == "bound":
                task.part.is_bounding = False  # also where another seat still has it: what is known goes on
            (self.take_bound if task.kind == "bound" else self.take_search)(task.part, answer)
            self.stop_shared(task)
        elif task.kind == "bound" and not task.part.is_bounding and task.part.branch is None:
            self.push(task.part)

    def stop_shared(self, task):
        for seat in self.seats:
            if seat.task and seat.task.part is task.part and seat.task.kind == task.kind:
                seat.stop()

    def take_failure(self, seat, task, failure):
        seat.failures += 1
        if isinstance(failure, Wrong) or seat.failures >= MOST_FAILURES:
            for it in self.seats:
                it.is_out = it.is_out or it.name == seat.name
            self.say(f"{seat.name} is left out: {failure}")
        else:
            seat.until = time.monotonic() + min(LONGEST_WAIT, 0.1 * 4**seat.failures)
            if seat.failures == 1:
                self.say(f"{seat.name}: {failure}; it is asked again")
        part = task.part
        if task.kind == "search":
            part.is_searched = False
            if part.is_whole:
                self.whole.append(part)
        elif not part.is_bounding and part.branch is None and not part.is_done():
            self.push(part)

    def take_bound(self, part, outcome):
        if part.is_done() or part.branch is not None:
            return
        if outcome.status == "infeasible":
            self.close(part, None, outcome.trees)
        elif outcome.status == "optimal" and len(outcome.trees[0]) == 1:
            self.take_leaf(part, outcome)
        else:
            self.search_or_divide(part, outcome.branch, outcome)

    def take_leaf(self, part, outcome):
        value = parts.turned(self.instance.goals[0], outcome.values[0])
        part.raise_bound(value, outcome.trees[0])
        if outcome.branch:
            self.keep_branch(part, outcome.branch)
        elif len(self.instance.goals) == 1:
            self.close(part, (value,), outcome.trees)
            self.offer(outcome.point)
        else:
            self.search_whole(part)

    def keep(self, part):
        """Writes down where a part is divided and what bounds it, as far as it is known."""
        branch = {"branch": part.branch} if part.branch else {}
        bound = {"bound": str(part.bound), "leaf": part.leaf} if part.bound is not None else {}
        self.book.write({"part": part.name, **branch, **bound})

    def keep_branch(self, part, branch):
        part.branch = branch
        self.keep(part)
        if not part.is_done():
            self.push(part)

    def search_whole(self, part):
        """Has a part searched to its end, which a search of it that runs goes on to; first those that are bounded, whose relaxed point is whole."""
        part.is_whole = True
        self.open.pop(part.name, None)
        running = [seat.task for seat in self.seats if seat.task and seat.task.part is part and seat.task.kind == "search"]
        if all(task.is_stopped for task in running):
            self.whole.insert(0 if part.bound is None else len(self.whole), part)

    def search_or_divide(self, part, branch, outcome):
        """A part without a bound: it is searched whole, once; then it is divided where it can be."""
        branch = branch or middle_branch(parts.with_branches(self.instance.variables, part.branches))
        if not part.is_searched or not branch and not part.is_whole:
            self.search_whole(part)
        elif branch:
            part.is_whole = False
            self.keep_branch(part, branch)
        else:
            part.is_stuck, self.cause = True, outcome.cause
            self.open.pop(part.name, None)
            self.say(f"part {part.name} stays open: {outcome.cause}")

    def take_search(self, part, outcome):
        if outcome.point is not None:
            self.offer(outcome.point)
        if part.is_done():
            return
        if outcome.status in ("optimal", "infeasible"):
            values = outcome.values and parts.turned_values(self.instance, outcome.values)
            self.close(part, values, outcome.trees)
        elif outcome.status == "unbounded" and not outcome.trees:
            self.endless = (outcome.point, outcome.ray)
        elif outcome.status == "unbounded":
            self.is_endless_later = True
        else:
            self.take_early(part, outcome)

    def take_early(self, part, outcome):
        """A search that ended before its part was solved."""
        if outcome.bound is not None and part.raise_bound(parts.turned(self.instance.goals[0], outcome.bound), outcome.trees[0]):
            self.keep(part)
            self.stop_settled()
        if part.is_whole and not self.is_settled(part):
            self.search_or_divide(part, None, outcome)

    # ---- the whole

    def run(self, until, points=()):
        """Until all parts are closed, or that moment has come; whether all are. `points`: some that are feasible."""
        for point in points:
            self.offer(point)
        self.resume(self.root)
        while True:
            self.give_work()
            if self.endless or self.is_endless_later or self.is_over():
                break
            if time.monotonic() >= until():
                self.cause = "killed"
                break
            if all(seat.is_out for seat in self.seats if self.is_wanted(seat)):
                self.cause = "killed"
                self.say("nobody is left who solves parts")
                break
            try:
                self.take(*self.events.get(timeout=0.05))
            except queue.Empty:
                pass
            self.tell_progress()
        self.stop()
        return self.is_over()

    def tell_progress(self):
        """Says now and then how far it is, so that nobody takes long work for none."""
        now = time.monotonic()
        if now - self.told >= TELL_EVERY:
            self.told = now
            running = sum(bool(seat.task) for seat in self.seats)
            self.say(f"{len(self.open) + len(self.whole)} parts are open, {running} seats work; {self.counts['bound']} were bounded, {self.counts['search']} searched")

    def is_wanted(self, seat):
        return "search" in seat.kinds or not self.coarse

    def is_over(self):
        """Whether every part is closed, as far as it can be."""
        if self.is_settled(self.root):
            return True
        while self.open:
            part = next(iter(self.open.values()))
            if not self.is_settled(part):
                return False
            del self.open[part.name]
        if any(not self.is_settled(part) for part in self.whole):
            return False
        tasks = [seat.task for seat in self.seats if seat.task]  # a part that is divided is over with its cases, whoever searches it still
        return not any(not task.part.children and not self.is_settled(task.part) for task in tasks)

    def stop(self):
        """Stops what runs, and takes what still comes of it."""
        self.heap, self.deep = [], []
        limit = time.monotonic() + 40
        for seat in self.seats:
            seat.stop()
        while any(seat.task for seat in self.seats) and time.monotonic() < limit:
            try:
                self.take(*self.events.get(timeout=0.2))
            except queue.Empty:
                pass

    def claim(self):
        """What is known of the whole."""
        if self.endless:
            return parts.Claim("unbounded", *self.endless)
        left = [part for part in itertools.chain([self.root], self.all_parts()) if self.is_left(part)]
        if not left and self.best is not None:
            levels = range(len(self.instance.goals))
            is_one = len(levels) == 1
            return parts.Claim("optimal", self.point, trees=tuple(self.tree(level, lambda bound: bound > self.best[0] or is_one and bound == self.best[0]) for level in levels))
        if not left:
            return parts.Claim("infeasible", trees=(self.tree(0, lambda _: False),))
        bounds = [part.key() for part in left] + ([self.best[0]] if self.best else [])
        bound = None if None in bounds else min(bounds)
        told = None if bound is None else parts.turned(self.instance.goals[0], bound)
        trees = () if bound is None else (self.tree(0, lambda own: own >= bound),)
        return parts.Claim("bestSoFar" if self.best else "unsure", self.point, None, told, trees, self.cause or "killed")

    def busy(self):
        """How much of their time the seats had a part."""
        whole = sum(time.monotonic() - seat.begun for seat in self.seats)
        return sum(seat.worked for seat in self.seats) / whole if whole else 0.0

    def all_parts(self):
        stack = [self.root]
        while stack:
            part = stack.pop()
            if part.closed:
                continue
            yield from part.children
            stack += part.children

    def is_left(self, part):
        return not part.children and not self.is_settled(part)

    def tree(self, level, is_enough):
        """The nodes of a level's tree, in preorder. A part whose bound is enough is closed by what shows that bound."""
        nodes, stack = [], [self.root]
        while stack:
            part = stack.pop()
            if part.bound is not None and is_enough(part.bound):
                nodes += part.leaf if level == 0 else [parts.ruled_out(node, self.column(0)) for node in part.leaf]
            elif part.closed:
                nodes += self.closed_tree(part.closed, level)
            else:
                nodes.append(part.branch.node())
                stack += reversed(part.children)
        return tuple(nodes)

    def column(self, level):
        """The column of the row that a level's value is to those behind it."""
        return len(self.instance.variables) + len(self.instance.rows) + level

    def closed_tree(self, closed, level):
        """The nodes of a closed part on a level. Where its values differ before, none of its points comes so far."""
        if closed.values is None or level == 0:
            return closed.trees[0]
        differs = next((k for k, (own, best) in enumerate(zip(closed.values, self.best)) if own != best), level)
        if differs >= level:
            return closed.trees[level]
        return [parts.ruled_out(node, self.column(differs)) for node in closed.trees[differs]]
