"""Real clients on `serve`: curl and wrk at 1, 8 and 64 connections; 64 clients whose history is checked; one that sends a byte a
second, beside others that must be answered as quickly as without it; clients that keep the server waiting, and more clients than it has
seats (`waiting_clients.py`).

    python3 tools/serve_clients.py [CALLS]     so many calls of 64 clients, 100,000 where none are asked for
"""

import hashlib
import html
import json
import os
import random
import re
import subprocess
import sys
import tempfile
import threading
import time

import histories
import waiting_clients
from histories import FINISHED, ISSUED, KILLED, RUNNING, Call, Contradiction
from serving import Client, Server, envelope, options, request, returned

CLIENTS = 64
MOST_KNOWN = 150
NOBODYS = (0, 900_000_000)
LUA = 'wrk.method = "POST"\nwrk.body = "{body}"\nwrk.headers["Content-Type"] = "text/xml; charset=utf-8"\n'


def instance(mark, whole):
    """Variable 0 has its greatest value, the mark, in every answer; so many whole variables make the search longer."""
    variables = f'<var lb="0" ub="{mark}"/>' + '<var type="I" lb="0" ub="1"/>' * whole
    costs = '<coef idx="0">1</coef>' + "".join(f'<coef idx="{j}">2</coef>' for j in range(1, whole + 1))
    rows = matrix = ""
    if whole:
        rows = f'<constraints><con ub="{whole | 1}"/></constraints>'
        columns = "".join(f"<el>{j}</el>" for j in range(1, whole + 1))
        matrix = (
            f"<linearConstraintCoefficients><start><el>0</el><el>{whole}</el></start><colIdx>{columns}</colIdx>"
            f"<value>{'<el>2</el>' * whole}</value></linearConstraintCoefficients>"
        )
    return (
        f"<osil><instanceData><variables>{variables}</variables><objectives><obj maxOrMin=\"max\">{costs}</obj></objectives>"
        f"{rows}{matrix}</instanceData></osil>"
    )


# ---- a history, recorded


def document_told(text):
    """What a result document tells: the state, and of a finished job the mark, whether it was asked to stop, and a digest."""
    state = re.search(r"<status>(\w+)</status>", text).group(1)
    if state != FINISHED:
        return (state, None, False, None)
    mark = re.search(r'<var idx="0">(\d+)</var>', text)
    digest = hashlib.sha256(re.sub(r"<jobID>[^<]*</jobID>", "", text).encode()).hexdigest()
    return (state, int(mark.group(1)) if mark else None, "<item>killed</item>" in text, digest)


def process_told(text):
    """What a process document tells: whether a job runs, how many wait or run, how many were given, and the jobs."""
    busy = "<currentState>busy</currentState>" in text
    current, total = (int(re.search(f"<{name}>(\\d+)</{name}>", text).group(1)) for name in ("currentJobCount", "totalJobsSoFar"))
    return busy, current, total, {int(n): state for n, state in re.findall(r'jobID="os-(\d+)"><state>(\w+)<', text)}


def told(name, job, text):
    if name == "getJobID":
        return int(re.fullmatch(r"os-(\d+)", text).group(1))
    if name == "send":
        return {"true": True, "false": False}[text]
    if name in ("retrieve", "solve"):
        return document_told(text)
    process = process_told(text)
    if name == "kill":
        if process[3].keys() - {job}:
            raise ValueError(f"a kill of os-{job} tells of {process[3]}")
        return (*process[:3], process[3].get(job))
    return process


class Crowd:
    """What the clients of one run know together: the numbers that some answer told them."""

    def __init__(self):
        self.lock, self.known, self.strange, self.met, self.calls = threading.Lock(), [], [], set(), []

    def learn(self, call):
        """Takes in an answer, after it was read."""
        with self.lock:
            self.calls.append(call)
            if call.name == "getJobID":
                self.known.append(call.answer)
                self.met.add(call.answer)
            elif call.name == "kill" and call.answer[3] is None and call.job in self.known:
                self.known.remove(call.job)
            elif call.name == "knock":
                new = [n for n, state in call.answer[3].items() if state == FINISHED and n not in self.met]
                self.met.update(new)
                self.strange += new

    def some(self, rng):
        with self.lock:
            if self.strange:
                return [("retrieve", self.strange[-1]), ("kill", self.strange.pop())]
            if len(self.known) > MOST_KNOWN:
                old = rng.choice(self.known[:CLIENTS])  # not all clients the same one, so that as many jobs go as come
                return [("kill", old), ("retrieve", old), ("kill", old)]
            return [(rng.choices(("send", "retrieve", "kill"), (30, 45, 25))[0], rng.choice(self.known))] if self.known else []


class User:
    """One client, which makes calls at random."""

    def __init__(self, number, crowd, port):
        self.number, self.crowd, self.rng, self.marks = number, crowd, random.Random(number), 0
        self.client = Client(port)

    def call(self, name, job=0):
        mark, parts = None, {}
        if name in ("send", "solve"):
            self.marks += 1
            mark = self.number * 1_000_000 + self.marks
            parts["osil"] = instance(mark, self.rng.choice((0, 0, 3, 5, 7)))
        if name in ("send", "retrieve", "kill"):
            parts["osol"] = options(job)
        body = envelope(name, **parts)
        sent = time.monotonic_ns()
        status, answer = self.client.post(body)
        received = time.monotonic_ns()
        if status != 200:
            raise ValueError(f"{name} of os-{job} was answered {status}: {answer!r}")
        call = Call(self.number, sent, received, name, job, mark, told(name, job, returned(answer)))
        self.crowd.learn(call)
        return call

    def next_calls(self):
        chance = self.rng.random()
        if chance < 0.04:
            return [("knock", 0)]
        if chance < 0.09:
            return [("solve", 0)]
        if chance < 0.10:
            return [(self.rng.choice(("send", "retrieve", "kill")), self.rng.choice(NOBODYS))]
        if chance < 0.35:
            return [("getJobID", 0)]
        return self.crowd.some(self.rng) or [("getJobID", 0)]

    def work(self, calls):
        while calls > 0:
            for name, job in self.next_calls():
                self.call(name, job)
                calls -= 1


def recorded(calls, port):
    """The history of so many calls by all clients at once, and of one client that looks at every job behind them."""
    crowd, failures = Crowd(), []
    users = [User(number, crowd, port) for number in range(CLIENTS)]

    def work(user):
        try:
            user.work(calls // CLIENTS)
        except Exception as failure:  # told below, with the client's number
            failures.append(f"client {user.number}: {failure!r}")

    threads = [threading.Thread(target=work, args=(user,)) for user in users]
    for thread in threads:
        thread.start()
    for thread in threads:
        thread.join()
    if failures:
        raise SystemExit("\n".join(failures))
    for number in users[0].call("knock").answer[3]:
        users[0].call("retrieve", number)
    for user in users:
        user.client.close()
    return crowd.calls


def write_log(calls, path):
    with open(path, "w", encoding="utf-8") as log:
        for c in calls:
            log.write(json.dumps([c.client, c.sent, c.received, c.name, c.job, c.mark, c.answer]) + "\n")


def read_log(path):
    """The calls of a log, whose answers are tuples and whose jobs have numbers again."""
    calls = []
    with open(path, encoding="utf-8") as log:
        for line in log:
            *front, answer = json.loads(line)
            if front[3] == "knock":
                answer[3] = {int(number): state for number, state in answer[3].items()}
            calls.append(Call(*front, tuple(answer) if isinstance(answer, list) else answer))
    return calls


# ---- wrong answers, planted in a log


def changed(call, answer):
    return Call(call.client, call.sent, call.received, call.name, call.job, call.mark, answer)


def plant(calls, rng):
    """Names and histories, each with one answer or two that no table gives."""

    def some(fits):
        return rng.choice([c for c in calls if fits(c)])

    def with_change(*changes):
        new = dict(changes)
        return [changed(c, new[c]) if c in new else c for c in calls]

    def seen(state, name="retrieve"):
        return lambda c: c.name == name and c.job and c.answer[0] == state

    last = max(c.received for c in calls)
    issues = [c for c in calls if c.name == "getJobID"]
    first, second = rng.sample(issues, 2)
    yield "a number is given twice", with_change((first, second.answer))
    user = [c for c in issues if c.client == first.client]
    yield "a client's numbers fall", with_change((user[0], user[-1].answer), (user[-1], user[0].answer))
    taken = {c.job for c in calls if c.name == "send" and c.answer}
    refused = some(lambda c: c.name == "send" and not c.answer and c.job in taken)
    yield "a second send is taken", with_change((refused, True))
    told_first = {}
    for c in calls:
        if seen(FINISHED)(c):
            told_first[c.job] = min(c.received, told_first.get(c.job, c.received))
    late = max((c for c in calls if seen(FINISHED)(c) and told_first[c.job] < c.sent), key=lambda c: c.sent)
    yield "a finished job runs again", with_change((late, (RUNNING, None, False, None)))
    # its number was given before it was asked for, and nobody had asked to give it up: else another order would explain the answer
    given = {c.answer: c.received for c in issues}
    killed = {}
    for c in calls:
        if c.name == "kill":
            killed[c.job] = min(c.sent, killed.get(c.job, c.sent))
    early = some(lambda c: seen(ISSUED)(c) and given.get(c.job, c.sent) < c.sent and c.received < killed.get(c.job, c.received + 1))
    yield "a job is unknown and then issued", with_change((early, ("unknown", None, False, None)), *(
        (c, (ISSUED, None, False, None)) for c in calls if c.name == "retrieve" and c.job == early.job and c.sent > early.received and c.answer[0] == "unknown"
    ))
    one = some(lambda c: seen(FINISHED)(c) and c.answer[1])
    other = some(lambda c: seen(FINISHED)(c) and c.answer[1] not in (None, one.answer[1]))
    yield "a job has another's document", with_change((one, other.answer))
    knock = some(lambda c: c.name == "knock" and ISSUED in c.answer[3].values())
    busy, current, total, jobs = knock.answer
    lost = next(n for n, state in jobs.items() if state == ISSUED)
    yield "a knock leaves a job out", with_change((knock, (busy, current, total, {n: s for n, s in jobs.items() if n != lost})))
    yield "a knock tells of numbers that weren't given yet", with_change((knock, (busy, current, total + CLIENTS, jobs)))
    yield "a knock counts one job more", with_change((knock, (busy, current + 1, total, jobs)))
    kill = some(lambda c: c.name == "kill" and c.answer[3] == KILLED and c.received < last)
    yield "a killed job runs", with_change((kill, (True, max(kill.answer[1], 1), kill.answer[2], RUNNING)))
    kill = some(lambda c: c.name == "kill")
    yield "a kill counts all clients more", with_change((kill, (True, kill.answer[1] + CLIENTS + 3, *kill.answer[2:])))


def planted_are_found(calls):
    """Whether each wrong answer that is planted is found, in three histories each."""
    missed = 0
    for seed in range(3):
        for name, history in plant(calls, random.Random(seed)):
            try:
                histories.check(history)
            except Contradiction:
                continue
            print(f"planted and not found: {name}")
            missed += 1
    return missed == 0


def history_is_legal(calls, folder):
    """Records a history, writes its log, and checks what was written; the history."""
    path = os.path.join(folder, "history")
    with Server(workers=2, servers=CLIENTS, connections=CLIENTS) as server:
        begun = time.monotonic()
        write_log(recorded(calls, server.port), path)
        spent = time.monotonic() - begun
    history = read_log(path)
    numbers = sum(c.name in ("getJobID", "solve") for c in history)
    if server.jobs != numbers:
        raise SystemExit(f"serve tells {server.jobs} jobs, and clients were given {numbers}")
    placed, hidden, most = histories.check(history)
    kinds = ", ".join(f"{sum(c.name == name for c in history)} {name}" for name in ("getJobID", "send", "retrieve", "kill", "knock", "solve"))
    print(f"{placed} calls of {CLIENTS} clients in {spent:.0f} s stand in one order ({kinds}), with {hidden} steps of jobs nobody saw; {most} states were open at once at most")
    return history


# ---- curl, wrk, and a slow client


def by_curl(count):
    """So many runs of curl at once, of three calls each."""
    osil = instance(7, 3)
    bodies = [envelope("getJobID"), envelope("solve", osil=osil), envelope("knock")]
    with tempfile.TemporaryDirectory() as folder, Server(workers=2, servers=CLIENTS, connections=count) as server:
        words = ["curl", "-s", "--fail-with-body"]
        for number, body in enumerate(bodies):
            with open(f"{folder}/{number}", "wb") as it:
                it.write(body)
            words += ["--next"] * (number > 0) + ["-H", "Content-Type: text/xml", "-H", 'SOAPAction: ""', "--data-binary", f"@{folder}/{number}", f"http://127.0.0.1:{server.port}/os"]
        runs = [subprocess.Popen(words, stdout=subprocess.PIPE) for _ in range(count)]
        outs = [run.communicate()[0].decode() for run in runs]
    good = sum(run.returncode == 0 and "os-" in out and "optimal" in out and "<currentState>" in html.unescape(out) for run, out in zip(runs, outs))
    print(f"curl, {count} at once: {good} got their three answers")
    return good == count and server.jobs == 2 * count


def by_wrk(count):
    """wrk with so many connections: whether all answers were 200."""
    with tempfile.TemporaryDirectory() as folder, Server(workers=2, servers=CLIENTS) as server:
        with open(f"{folder}/lua", "w", encoding="utf-8") as it:
            it.write(LUA.replace("{body}", envelope("knock").decode()))
        words = ["wrk", "-t", str(min(count, 4)), "-c", str(count), "-d", "2s", "-s", f"{folder}/lua", f"http://127.0.0.1:{server.port}/os"]
        out = subprocess.run(words, capture_output=True, text=True, check=True).stdout
    answered = int(re.search(r"(\d+) requests in", out).group(1))
    wrong = re.findall(r"Non-2xx.*|Socket errors.*", out)
    print(f"wrk, {count} connections: {answered} answers {' '.join(wrong)}")
    return answered > 0 and not wrong


def quick_times(port, until, times):
    client, body = Client(port), envelope("getJobID")
    while time.monotonic() < until:
        begun = time.monotonic()
        status, _ = client.post(body)
        times.append(time.monotonic() - begun if status == 200 else float("inf"))
        time.sleep(0.01)
    client.close()


def beside_slow(slow, seconds):
    """How long seven clients wait for answers of a server with eight threads, beside one that sends a byte a second or none."""
    times, answered = [], 200
    with Server(workers=2, servers=8, connections=7 + slow) as server:
        slow_client = Client(server.port) if slow else None
        until = time.monotonic() + seconds
        threads = [threading.Thread(target=quick_times, args=(server.port, until, times)) for _ in range(7)]
        for thread in threads:
            thread.start()
        if slow:
            text = request(envelope("knock"))
            for place in range(seconds):
                slow_client.link.sendall(text[place : place + 1])
                time.sleep(1)
            slow_client.link.sendall(text[seconds:])
            answered, _ = slow_client.answer()
            slow_client.close()
        for thread in threads:
            thread.join()
    times.sort()
    return times[len(times) // 2], times[-1], answered


def slow_holds_one_thread():
    (median, longest, _), (beside, longest_beside, answered) = beside_slow(0, 10), beside_slow(1, 10)
    print(f"seven clients wait {median * 1e3:.2f} ms, {longest * 1e3:.1f} at most; beside one that sends a byte a second {beside * 1e3:.2f} ms, {longest_beside * 1e3:.1f} at most")
    return answered == 200 and longest_beside < 0.9


def main():
    calls = int(sys.argv[1]) if len(sys.argv) > 1 else 100_000
    good = [by_curl(count) for count in (1, 8, 64)] + [by_wrk(count) for count in (1, 8, 64)]
    good += [slow_holds_one_thread(), waiting_clients.main()]
    with tempfile.TemporaryDirectory() as folder:
        try:
            good.append(planted_are_found(history_is_legal(min(calls, 6400), folder)))
            good.append(bool(history_is_legal(calls, folder)))
        except Contradiction as contradiction:
            print(f"the history isn't shown to be one of a table:\n{contradiction}")
            good.append(False)
    print(f"{sum(good)} passed, {len(good) - sum(good)} failed")
    return not all(good)


if __name__ == "__main__":
    sys.exit(main())
