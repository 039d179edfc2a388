"""Checks a history: whether the answers that many clients got from one table of jobs (`docs/rules/jobs.md`) stand in one order.

A history has the calls of all clients, each with the moment before it was sent and the moment after its answer was read, of one
clock. `check` looks for an order of all calls, with the claims and the finishes that nobody saw among them, in which each answer is
the table's, and in which no call stands before one that was answered before it was sent; so each client's order is kept too. What it
finds is replayed on a table before it is believed, so what is called legal is legal.

Contradictions are told where they are sure: by one answer, by two, by a chain of calls of which each must stand before the next, the last
answered before the first was sent; and where `order.cpp` has no state left of all that the answers so far leave open. Where these were too many
to keep all, it tells where it was lost; that is no proof.

What keeps these few: numbers are given in order, so the total in an answer says between which issues its call stands; a job goes one way
through its phases, so no job leaves a phase while a call is left that saw it so; and a call that changes nothing that another one can tell
stands as soon as it fits. What is left to choose is when jobs are sent, entered, claimed, finished and killed while they wait, for kills
tell how many wait or run. Two orders of the same calls that leave the table the same are one state. Clients may ask only for numbers that an
answer told them, or that nobody is given. A solve that was answered without its document, as one whose job was given up meanwhile, gets the
least number that nobody else was given: one more choice, which isn't tried otherwise.
"""

import atexit
import bisect
import functools
import os
import shutil
import subprocess
import tempfile

ABSENT, ISSUED, WAITING, RUNNING, FINISHED, KILLED, GONE = "unknown", "issued", "waiting", "running", "finished", "killed", "gone"
PHASES = (ABSENT, ISSUED, WAITING, RUNNING, FINISHED, KILLED, GONE)
MOST_CLIENTS = 64  # of which each has one call at a time that isn't answered
LIMITS = ((200, 3_000), (2_000, 30_000))  # how many states are kept at once, and looked at on the way to a call: at first, and where no order was found so


class Call:
    """A call: who made it, when, its name, the number of its job, the mark of its instance, and what was answered.

    Answers: of getJobID the number; of send whether; of retrieve (state, mark, whether it says that it was asked to stop, digest), the
    last three of a document alone; of solve as of retrieve; of kill (busy, current, total, state or None); of knock (busy, current,
    total, {number: state}).
    """

    __slots__ = ("client", "sent", "received", "name", "job", "mark", "answer", "place")

    def __init__(self, client, sent, received, name, job, mark, answer):
        self.client, self.sent, self.received, self.name, self.job, self.mark, self.answer = client, sent, received, name, job, mark, answer
        self.place = 0

    def __str__(self):
        job = f" os-{self.job}" if self.job else ""
        return f"client {self.client} at {self.sent / 1e9:.6f} to {self.received / 1e9:.6f}: {self.name}{job} answered {self.answer}"


class Table:
    """The table of jobs, call by call, as far as answers tell of it."""

    def __init__(self):
        self.total, self.jobs, self.marks, self.killed = 0, {}, {}, {}

    def counts(self):
        states = list(self.jobs.values())
        return RUNNING in states, states.count(WAITING) + states.count(RUNNING), self.total

    def issue(self):
        self.total += 1
        self.jobs[self.total] = ISSUED
        return self.total

    def enter(self, mark):
        number = self.issue()
        self.jobs[number], self.marks[number] = RUNNING, mark
        return number

    def send(self, number, mark):
        if self.jobs.get(number) != ISSUED:
            return False
        self.jobs[number], self.marks[number] = WAITING, mark
        return True

    def claim(self):
        number = min((n for n, state in self.jobs.items() if state == WAITING), default=None)
        if number is not None:
            self.jobs[number] = RUNNING
        return number

    def finish(self, number, says_killed):
        kept = self.jobs.get(number) == RUNNING and (not says_killed or self.killed.get(number, False))
        if kept:
            self.jobs[number], self.killed[number] = FINISHED, says_killed
        return kept

    def kill(self, number):
        state = self.jobs.get(number)
        if state in (ISSUED, WAITING):
            self.jobs[number] = KILLED
        elif state == RUNNING:
            self.killed[number] = True
        elif state is not None:
            del self.jobs[number]
        return (*self.counts(), self.jobs.get(number))

    def retrieve(self, number):
        state = self.jobs.get(number, ABSENT)
        return (state, self.marks[number], self.killed[number]) if state == FINISHED else (state, None, False)

    def knock(self):
        return (*self.counts(), dict(self.jobs))


class Contradiction(Exception):
    """Answers that no order has."""


def told_of(call):
    """The state that an answer tells of the call's job; a kill that gave it up, or that found none, tells `gone`."""
    if call.name in ("retrieve", "solve"):
        return GONE if call.answer[0] == ABSENT else call.answer[0]
    return GONE if call.answer[3] is None else call.answer[3]


class Job:
    """What the whole history says of one number."""

    def __init__(self):
        self.issue = self.send = self.kill = None  # the calls that issued or entered, sent, and killed it before it ran
        self.gone = []  # kills that were answered without the job
        self.seen = {state: [] for state in (ISSUED, WAITING, RUNNING, FINISHED, KILLED, GONE)}  # the calls that saw it so
        self.claimed = set()  # numbers above it that were claimed before it was sent: a knock saw them run, or done, and it wait
        self.document = None  # the mark of its document, and whether that says that it was killed

    def is_entered(self):
        return self.issue.name == "solve"

    def is_known(self):
        return bool(self.issue or self.send or self.kill or any(calls for state, calls in self.seen.items() if state != GONE))


class History:
    """The calls by job, and what contradicts at sight."""

    def __init__(self, calls):
        self.calls, self.jobs, self.totals, self.false_sends = calls, {}, {}, []
        for place, call in enumerate(calls):
            call.place = place
        for call in calls:
            self.take(call)
        self.name_entered()
        last = max([n for n, job in self.jobs.items() if job.issue] + list(self.totals), default=0)
        for number in sorted(set(range(1, last + 1)) | set(self.jobs)):
            if number <= last and self.job(number).issue is None:
                raise Contradiction(f"os-{number} was never given, and a later number or a greater total is told")
            if number > last and self.jobs.pop(number).is_known():
                raise Contradiction(f"os-{number} is known, and was never given")
        for number, job in self.jobs.items():
            self.look_at(number, job)
        self.look_at_counts()
        self.look_at_knocks()

    def job(self, number):
        if number not in self.jobs:
            self.jobs[number] = Job()
        return self.jobs[number]

    def once(self, job, what, call):
        if getattr(job, what) is not None:
            raise Contradiction(f"twice:\n  {getattr(job, what)}\n  {call}")
        setattr(job, what, call)

    def take(self, call):
        if call.name == "getJobID":
            self.once(self.job(call.answer), "issue", call)
        elif call.name == "send" and call.answer:
            self.once(self.job(call.job), "send", call)
        elif call.name == "knock":
            self.take_knock(call)
        elif call.name in ("retrieve", "kill") and call.job:
            self.take_about(call)
        if call.name in ("kill", "knock"):
            self.totals.setdefault(call.answer[2], []).append(call)

    def take_knock(self, call):
        busy, current, total, jobs = call.answer
        states = list(jobs.values())
        if busy != (RUNNING in states) or current != states.count(WAITING) + states.count(RUNNING) or max(jobs, default=0) > total:
            raise Contradiction(f"its jobs aren't those that it counts: {call}")
        for number, state in jobs.items():
            self.job(number).seen[state].append(call)
            if state == WAITING:
                self.job(number).claimed.update(n for n, other in jobs.items() if n > number and other in (RUNNING, FINISHED))

    def take_about(self, call):
        job, state = self.job(call.job), told_of(call)
        if call.name == "kill" and state not in (RUNNING, KILLED, GONE):
            raise Contradiction(f"a kill leaves no job so: {call}")
        if call.name == "kill" and state == KILLED:
            self.once(job, "kill", call)
        elif call.name == "kill" and state == GONE:
            job.gone.append(call)
        else:
            job.seen[state].append(call)
        if call.name == "retrieve" and state == FINISHED:
            if job.document not in (None, call.answer[1:]):
                raise Contradiction(f"os-{call.job} has two documents:\n  {call}\n  {job.seen[FINISHED][0]}")
            job.document = call.answer[1:]

    def name_entered(self):
        """Gives each call of solve its number: the one whose document has its mark, or else, in order, one that nobody was given."""
        last = max([n for n, job in self.jobs.items() if job.is_known()] + list(self.totals), default=0)
        free = [n for n in range(1, last + 1) if n not in self.jobs or self.jobs[n].issue is None]
        solves = {call.mark: call for call in self.calls if call.name == "solve"}
        for number in list(free):
            call = solves.pop(self.job(number).document and self.job(number).document[0], None)
            if call:
                self.enter(number, call)
                free.remove(number)
        free += range(last + 1, last + 1 + len(solves) - len(free))
        for number, call in zip(free, sorted(solves.values(), key=lambda c: c.received)):
            self.enter(number, call)

    def enter(self, number, call):
        if told_of(call) not in (FINISHED, GONE):
            raise Contradiction(f"answered before it was finished: {call}")
        call.job, job = number, self.job(number)
        job.issue = call
        job.seen[told_of(call)].append(call)
        if told_of(call) == FINISHED and job.document is None:
            job.document = call.answer[1:]

    def look_at(self, number, job):
        """What one job's calls contradict at sight."""
        sent = job.send or (job.issue if job.is_entered() else None)
        if job.document and (sent is None or job.document[0] not in (None, sent.mark)):
            raise Contradiction(f"os-{number} has a document of another instance than was sent:\n  {job.seen[FINISHED][0]}\n  {sent}")
        if job.document and job.document[1] and not any(c.name == "kill" for c in job.seen[RUNNING]):
            raise Contradiction(f"os-{number} says that it was asked to stop, and no kill asked:\n  {job.seen[FINISHED][0]}")
        if job.is_entered() and (job.send or job.kill):
            raise Contradiction(f"os-{number} runs as soon as it is there:\n  {job.issue}\n  {job.send or job.kill}")
        wrong = ([] if sent else [WAITING, RUNNING, FINISHED]) + ([RUNNING, FINISHED] if job.kill else [KILLED])
        for state in wrong + ([ISSUED, WAITING] if job.is_entered() else []):
            if job.seen[state]:
                raise Contradiction(f"os-{number} can't have been {state}:\n  {job.seen[state][0]}")
        if job.seen[GONE] and not job.gone:
            raise Contradiction(f"os-{number} was unknown, and no kill gave it up:\n  {job.seen[GONE][0]}")

    def look_at_counts(self):
        """No kill tells of more jobs than had been sent by then, less those that were seen to have ended before."""
        begun, ended = [], []
        for job in self.jobs.values():
            start = job.send or (job.issue if job.is_entered() else None)
            ends = [c.received for c in job.seen[FINISHED] + job.seen[KILLED] + job.seen[GONE] + job.gone + ([job.kill] if job.kill else [])]
            if start:
                begun.append(start.sent)
                ended += [min(ends)] if ends else []
        begun.sort()
        ended.sort()
        for call in self.calls:
            if call.name == "kill" and call.answer[1] > bisect.bisect(begun, call.received) - bisect.bisect_left(ended, call.sent):
                raise Contradiction(f"so many can't wait or run: {call}")

    def look_at_knocks(self):
        """No knock leaves a job out that wasn't given up before the knock was answered."""
        held = {}
        for number, job in self.jobs.items():
            seen = [call.sent for phase, calls in job.seen.items() if phase != GONE for call in calls]
            held[number] = max(seen + [min((call.sent for call in job.gone), default=float("inf"))])
        numbers, more = [], sorted(held, key=held.get)
        for knock in sorted((c for c in self.calls if c.name == "knock"), key=lambda c: -c.received):
            while more and held[more[-1]] > knock.received:
                bisect.insort(numbers, more.pop())
            for number in numbers[: bisect.bisect(numbers, knock.answer[2])]:
                if number not in knock.answer[3]:
                    raise Contradiction(f"os-{number} is left out, and was given up later: {knock}")


class Chains:
    """Which calls must stand before which, and the moment before which each can't stand."""

    def __init__(self, history):
        self.history, self.behind, self.before, self.span, self.later = history, {}, {}, {}, []
        for call in history.calls:
            self.span[self.node(call)] = (call.sent, call.received)
        for number, job in history.jobs.items():
            self.chain(number, job)
        for first, second in self.later:
            self.edge(first, second)
        for total, calls in history.totals.items():
            for call in calls:
                self.edge(("issue", total), self.node(call))
                self.edge(self.node(call), ("issue", total + 1))

    @staticmethod
    def node(call):
        return ("issue", call.answer) if call.name == "getJobID" else call.place

    def edge(self, first, second):
        if {first, second} <= self.span.keys():
            self.behind.setdefault(first, []).append(second)
            self.before[second] = self.before.get(second, 0) + 1

    def hidden(self, what, number, sent=float("-inf"), received=float("inf")):
        self.span[what, number] = (sent, received)
        return (what, number)

    def chain(self, number, job):
        """The steps of one job, and what was seen between them."""
        if job.is_entered():
            self.hidden("issue", number, job.issue.sent, job.issue.received)
        self.edge(("issue", number - 1), ("issue", number))
        steps = [(RUNNING if job.is_entered() else ISSUED, ("issue", number))]
        if job.send:
            steps.append((WAITING, job.send.place))
        if job.kill:
            steps.append((KILLED, job.kill.place))
        elif job.send:
            steps.append((RUNNING, self.hidden("claim", number)))
        if not job.kill and (job.send or job.is_entered()):
            steps.append((FINISHED, self.hidden("finish", number)))
        if job.gone:
            steps.append((GONE, self.hidden("gone", number, min(c.sent for c in job.gone), max(c.received for c in job.gone))))
        for other in job.claimed:
            if not self.history.jobs[other].is_entered():
                self.later.append((("claim", other), job.send.place))
        for place, (phase, step) in enumerate(steps):
            following = steps[place + 1][1] if place + 1 < len(steps) else None
            for call in job.seen[phase]:
                self.edge(step, self.node(call))
                self.edge(self.node(call), following)
            for call in job.gone if phase == GONE else []:
                self.edge(step, self.node(call))
            self.edge(step, following)

    def look(self):
        """Raises Contradiction where a call must stand behind one that was sent after it was answered."""
        ready = [node for node in self.span if not self.before.get(node)]
        earliest, cause, left = {node: span[0] for node, span in self.span.items()}, {}, dict(self.before)
        done = 0
        while ready:
            node = ready.pop()
            done += 1
            if earliest[node] > self.span[node][1]:
                raise Contradiction("each must stand before the next, and the last was answered before the first was sent:\n" + self.told(node, cause))
            for other in self.behind.get(node, []):
                if earliest[node] > earliest[other]:
                    earliest[other], cause[other] = earliest[node], node
                left[other] -= 1
                if not left[other]:
                    ready.append(other)
        if done < len(self.span):
            stuck = [node for node in self.span if left.get(node)][:4]
            raise Contradiction("these, among others, must each stand before the others:\n" + "\n".join(f"  {self.name(node)}" for node in stuck))

    def told(self, node, cause):
        lines = []
        while node is not None:
            lines.append(f"  {self.name(node)}")
            node = cause.get(node)
        return "\n".join(reversed(lines))

    def name(self, node):
        if isinstance(node, tuple):
            return str(self.history.jobs[node[1]].issue) if node[0] == "issue" else f"{node[0]} of os-{node[1]}"
        return str(self.history.calls[node])


# ---- all orders that are left, by a program of its own

LETTERS = {"getJobID": "i", "send": "s", "retrieve": "r", "kill": "k", "knock": "n", "solve": "v"}


def line_of(call, history):
    """A call as `order.cpp` reads it."""
    job, phase, counts, seen = call.job, 0, (False, 0, 0), []
    if call.name == "getJobID":
        job = call.answer
    elif call.name == "send":
        phase = int(call.answer)
    elif call.name == "knock":
        seen = [(number, PHASES.index(state)) for number, state in call.answer[3].items()]
    else:
        phase = PHASES.index(told_of(call))
        seen = [(job, phase)] if job in history.jobs and told_of(call) not in ((GONE,) if call.name != "kill" else (GONE, KILLED)) else []
    if call.name in ("kill", "knock"):
        counts = call.answer[:3]
    numbers = [call.sent, call.received, call.client, LETTERS[call.name], job if job in history.jobs else 0, phase, int(counts[0]), *counts[1:], len(seen)]
    return " ".join(map(str, [*numbers, *(it for pair in seen for it in pair)]))


def text_of(history):
    last = max(history.jobs, default=0)
    lines = [f"{len(history.calls)} {last} {max([last, *history.totals])}"] + [line_of(call, history) for call in history.calls]
    for number in range(1, last + 1):
        job = history.jobs[number]
        entered = job.issue.place if job.is_entered() else -1
        others = [other for other in job.claimed if not history.jobs[other].is_entered()]
        places = [it.place if it else -1 for it in (job.send, job.kill)]
        lines.append(" ".join(map(str, [entered, *places, len(others), *others])))
    return "\n".join(lines)


@functools.cache
def built():
    """The program that looks for an order."""
    folder = tempfile.mkdtemp(prefix="order-")
    atexit.register(shutil.rmtree, folder)
    source = os.path.join(os.path.dirname(os.path.abspath(__file__)), "order.cpp")
    subprocess.run(["g++", "-O2", "-std=c++17", "-o", f"{folder}/order", source], check=True)
    return f"{folder}/order"


def found_order(history):
    """An order of all calls, with the steps that nobody saw, and how many states there were at once at most."""
    if any(call.client >= MOST_CLIENTS for call in history.calls):
        raise ValueError(f"more than {MOST_CLIENTS} clients")
    text = text_of(history)
    for limits in LIMITS:
        words = [built(), *map(str, limits)]
        answer, *lines = subprocess.run(words, input=text, stdout=subprocess.PIPE, text=True, check=True).stdout.splitlines()
        word, number = answer.split()
        if word != "lost":
            break
    if word != "order":
        why = "there is no order with" if word == "none" else "no order was found with"
        raise Contradiction(f"{why} {history.calls[int(number)]}")
    order = []
    for line in lines:
        what, which = line.split()
        call = history.calls[int(which)] if what in "ce" else int(which)
        order.append({"c": lambda c=call: (c.name, c), "e": lambda c=call: ("enter", c), "l": lambda c=call: ("claim", c), "f": lambda c=call: ("finish", c)}[what]())
    return order, int(number)


def replayed(order, documents):
    """Makes the calls in this order on a table: whether each answer is the table's, and none stands before one answered before it was
    sent."""
    table, latest = Table(), 0
    for what, call in order:
        if what == "claim":
            if table.claim() != call:
                return f"os-{call} isn't the first that waits"
            continue
        if what == "finish":
            if not table.finish(call, bool(documents.get(call) and documents[call][1])):
                return f"os-{call} can't finish"
            continue
        latest = max(latest, call.sent)
        if latest > call.received:
            return f"stands behind one that was sent later: {call}"
        if what == "enter":
            if table.enter(call.mark) != call.job:
                return f"has another number: {call}"
            continue
        told = call.answer[:3] if what in ("retrieve", "solve") else call.answer
        answer = {
            "getJobID": table.issue, "knock": table.knock, "send": lambda: table.send(call.job, call.mark),
            "kill": lambda: table.kill(call.job), "retrieve": lambda: table.retrieve(call.job), "solve": lambda: table.retrieve(call.job),
        }[what]()
        if what in ("retrieve", "solve") and answer[0] == FINISHED and told[1] is None:
            answer = (answer[0], None, answer[2])  # the document has no point
        if answer != told:
            return f"the table answers {answer}: {call}"
    return None


def check(calls):
    """How many calls stand in one order, how many claims, finishes and beginnings of solves among them, and how many orders were open at once.

    Raises Contradiction where there is none.
    """
    history = History(calls)
    Chains(history).look()
    order, most = found_order(history)
    wrong = replayed(order, {number: job.document for number, job in history.jobs.items()})
    placed = sum(1 for what, _ in order if what not in ("claim", "finish", "enter"))
    if wrong or placed != len(calls):
        raise Contradiction(wrong or f"{len(calls) - placed} calls have no place")
    return placed, len(order) - placed, most
