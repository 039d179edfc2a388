"""Tries servers behind the proxy, and kills one of them while clients are answered.

    python3 deploy/try.py [CALLS]     so many calls of recorded clients, 2,000 where none are asked for
"""

import random
import re
import ssl
import subprocess
import sys
import threading
import time
import urllib.error
import urllib.request
from pathlib import Path

import gubnatris
import histories
import takeover
from histories import RUNNING, Call, Contradiction
from proxied import NAMES, NUMBERS, PASSWORD, USER, Machines, ProxyClient
from serve_clients import instance, told
from serving import Client, envelope, free_port, options, returned

CLIENTS = 24
LONGEST = 4_194_304
NOBODYS = 900_000_000
ADDRESSES = 25_000_000  # bytes within which a server answers each call
FEW_ADDRESSES = 12_000_000  # and within which it has none for long ones
SHORT_CALLS = 200  # of each server, which has 64 seats
LONGEST_START = 120  # seconds until all searches run
TRIES = 40  # how often a server is asked that may be taken for down, twice a second


class Crowd:
    """What recorded clients know together: the numbers that some answer told, what was answered, and what wasn't."""

    def __init__(self, machines):
        self.machines, self.lock, self.known, self.answered, self.lost = machines, threading.Lock(), [], [], []
        self.is_gentle = False  # whether calls are left out of which it couldn't be told later what they did, if they aren't answered
        self.killed_at = float("inf")  # when the killed server was known to be gone

    def take(self, server, call, number):
        with self.lock:
            self.answered.append((server, call))
            if call.name == "getJobID":
                self.known.append(number)
            elif call.name == "kill" and call.answer[3] is None and number in self.known:
                self.known.remove(number)

    def lose(self, status, call):
        with self.lock:
            self.lost.append((status, call))

    def some(self, rng):
        with self.lock:
            return rng.choice(self.known) if self.known else 0


def owner(number):
    """The name of the server whose number it is, if it is one's."""
    return NAMES[number // NUMBERS - 1] if NUMBERS <= number < (len(NAMES) + 1) * NUMBERS else None


class User:
    """One client, which makes calls at random. Its calls are kept with the numbers as they are."""

    def __init__(self, number, crowd):
        self.number, self.crowd, self.rng, self.marks = number, crowd, random.Random(number), 0
        self.client = ProxyClient(crowd.machines)

    def call(self, name, job=0):
        mark, parts = None, {}
        if name in ("send", "solve"):
            self.marks += 1
            mark = self.number * 1_000_000 + self.marks
            parts["osil"] = instance(mark, self.rng.choice((0, 0, 3, 5, 7)))
        if job:
            parts["osol"] = options(job)
        body = envelope(name, **parts)
        sent = time.monotonic_ns()
        try:
            status, answer = self.client.post(body)
        except OSError:
            status = 0
            self.client.connect()
        received = time.monotonic_ns()
        if status != 200:
            self.crowd.lose(status, Call(self.number, sent, received, name, job, mark, None))
            return None
        call = Call(self.number, sent, received, name, job, mark, told(name, job, returned(answer)))
        if owner(job) not in (None, self.client.server):
            raise ValueError(f"{name} of os-{job} was answered by server {self.client.server}")
        self.crowd.take(self.client.server, call, call.answer if name == "getJobID" else job)
        return call

    def next_call(self):
        gentle, chance = self.crowd.is_gentle, self.rng.random()
        if chance < 0.03:
            return "knock", 0
        if chance < 0.08 and not gentle:
            return "solve", 0
        if chance < 0.10:
            return self.rng.choice(("send", "retrieve")), NOBODYS
        job = self.crowd.some(self.rng)
        if chance < 0.35 or not job:
            return "getJobID", 0
        return self.rng.choices(("send", "retrieve", "kill"), (30, 45, 0 if gentle else 25))[0], job

    def work(self, calls):
        """Makes half of so many calls before the server is killed, and half behind that."""
        made = 0
        while made < calls // 2 or self.crowd.killed_at == float("inf"):
            self.call(*self.next_call())
            made += 1
        for _ in range(calls // 2):
            self.call(*self.next_call())


def all_work(users, calls, during):
    """All clients make so many calls, while something is done behind the first third of them."""
    failures = []

    def work(user):
        try:
            user.work(calls // CLIENTS)
        except Exception as failure:  # told below, with the client's number
            failures.append(f"client {user.number}: {failure!r}")

    threads = [threading.Thread(target=work, args=(user,), daemon=True) for user in users]
    for thread in threads:
        thread.start()
    while len(users[0].crowd.answered) < calls // 3 and not failures:
        time.sleep(0.01)
    during()
    for thread in threads:
        thread.join()
    if failures:
        raise SystemExit("\n".join(failures))


# ---- one order for each server


def as_from_one(call, first):
    """The call with numbers as those of a table whose numbers begin with 1."""

    def own(number):
        return number - first + 1 if number >= first else number

    answer = call.answer
    if call.name == "getJobID" and answer:
        answer = own(answer)
    elif call.name == "knock" and answer:
        answer = (*answer[:3], {own(number): state for number, state in answer[3].items()})
    return Call(call.client, call.sent, call.received, call.name, own(call.job), call.mark, answer)


def completed(calls, lost):
    """The calls of a server that was killed, with those that it made and didn't come to answer.

    Such a call of getJobID took one of the last numbers, where one is missing; such a send was taken where the job was seen behind it.
    All others told nothing, or were none of these while the server was killed.
    """
    end = max(c.received for c in calls) + 1
    given = {c.answer for c in calls if c.name == "getJobID"}
    last = max([*given, *(c.answer[2] for c in calls if c.name in ("kill", "knock"))])
    free = [n for n in range(1, last + 1) if n not in given]
    missing = free[len([c for c in calls if c.name == "solve"]) :]
    issues = sorted((c for c in lost if c.name == "getJobID"), key=lambda c: c.sent)
    more = [Call(c.client, c.sent, end, c.name, 0, None, n) for n, c in zip(missing, issues)]
    taken = {c.job for c in calls if c.name == "send" and c.answer}
    seen = {c.job for c in calls if c.name == "retrieve" and c.answer[0] in ("waiting", "running", "finished")}
    seen |= {n for c in calls if c.name == "knock" for n, state in c.answer[3].items() if state in ("waiting", "running", "finished")}
    for call in sorted((c for c in lost if c.name == "send"), key=lambda c: c.sent):
        if call.job in seen - taken:
            taken.add(call.job)
            more.append(Call(call.client, call.sent, end, "send", call.job, call.mark, True))
    return calls + more, len(more)


def stand_in_order(crowd, firsts):
    """Whether the calls that each server answered stand in one order of its table."""
    good = True
    for name in NAMES:
        calls, more = [as_from_one(call, firsts[name]) for server, call in crowd.answered if server == name], 0
        if name == "two":
            lost = [call for _, call in crowd.lost if call.sent < crowd.killed_at and owner(call.job) in (None, "two")]
            calls, more = completed(calls, [as_from_one(call, firsts[name]) for call in lost])
        try:
            placed, hidden, back = histories.check(calls)
            unanswered = f", {more} that weren't answered among them" if more else ""
            print(f"server {name}: {placed} calls stand in one order{unanswered}, with {hidden} steps of jobs nobody saw; {back} steps back")
        except Contradiction as contradiction:
            print(f"server {name}: the calls aren't shown to be those of a table:\n{contradiction}")
            good = False
    return good


# ---- what is tried


def kill_beside_clients(machines, calls):
    """Clients at work while a server is killed: all that isn't its own is answered, and each server's calls stand in one order."""
    crowd = Crowd(machines)
    users, observer = [User(number, crowd) for number in range(CLIENTS)], User(CLIENTS, crowd)
    firsts = {}
    while set(firsts) != set(NAMES):
        number = users[0].call("getJobID").answer
        firsts.setdefault(owner(number), number)

    def kill():
        crowd.is_gentle = True
        time.sleep(0.5)
        read_all(observer, firsts["two"])
        machines.kill("two")
        crowd.killed_at = time.monotonic_ns()
        crowd.is_gentle = False

    all_work(users, calls, kill)
    machines.wait_for({"one": "UP", "two": "DOWN", "three": "UP"})
    for name in ("one", "three"):
        read_all(observer, firsts[name])
    for user in [*users, observer]:
        user.client.close()
    return all([only_its_calls_are_lost(crowd), stand_in_order(crowd, firsts)])


def only_its_calls_are_lost(crowd):
    """Whether of the calls that weren't answered each was sent before the server was gone, or names its job and got 503 behind that."""
    under_way, refused, wrong = [], [], []
    for status, call in crowd.lost:
        begun_before, of_two = call.sent < crowd.killed_at, owner(call.job) == "two"
        if begun_before and owner(call.job) in (None, "two"):
            under_way.append(status)
        elif of_two and status == 503:
            refused.append(call)
        else:
            wrong.append((status, call))
    print(f"{len(crowd.answered)} calls of {CLIENTS} clients were answered. Server two was killed: {len(under_way)} calls were with it just then,")
    print(f"{len(refused)} calls that name its jobs got 503, and of all others {len(wrong)} weren't answered")
    for status, call in wrong[:5]:
        print(f"  {status}, {(call.sent - crowd.killed_at) / 1e6:.1f} ms behind the kill: {call}")
    return bool(refused) and not wrong


def read_all(user, number):
    """Reads each job of the server whose number that is: so the number is known of those that a call of solve made."""
    for job in client_jobs(user.client, number):
        user.call("retrieve", job)


def numbers_of_all(client):
    """One number of each server that takes new jobs, by asking for some."""
    found = {}
    for _ in range(30):
        number = int(returned(client.post(envelope("getJobID"))[1])[3:])
        found.setdefault(owner(number), number)
    return found


def long_searches_hold_nobody_up(machines):
    """While each server searches for a client that waits on its connection, more short calls than it has seats are answered, and it stays up."""
    client, statuses, begun = ProxyClient(machines), [], time.monotonic()
    numbers = numbers_of_all(client)
    osil, limits = instance(1, 61), "".join(f'<solverOption name="{name}" value="{limit}"/>' for name, limit in (("nodeLimit", 10**6), ("pivotLimit", 10**8)))
    body = envelope("solve", osil=osil, osol=f"<osol><optimization><solverOptions>{limits}</solverOptions></optimization></osol>")
    searches = [threading.Thread(target=lambda: ProxyClient(machines).post(body)) for _ in NAMES]
    for thread in searches:
        thread.start()
    while not all(RUNNING in client_jobs(client, number).values() for number in numbers.values()) and time.monotonic() - begun < LONGEST_START:
        time.sleep(0.05)
    for _ in range(SHORT_CALLS):
        statuses += [client.post(envelope("retrieve", osol=options(number)))[0] for number in numbers.values()]
    held, states = sum(thread.is_alive() for thread in searches), machines.states()
    for number in numbers.values():
        for job, state in client_jobs(client, number).items():
            if state == RUNNING:
                client.post(envelope("kill", osol=options(job)))
    for thread in searches:
        thread.join()
    client.close()
    good = set(statuses) == {200} and held == len(NAMES) and set(states.values()) == {"UP"}
    print(f"beside {held} long searches {statuses.count(200)} of {len(statuses)} short calls were answered, and {list(states.values()).count('UP')} servers stay up")
    return good


def client_jobs(client, number):
    """The jobs of the server whose number that is, with their states. Where other work keeps a server from a check, the proxy takes it for
    down for a while, so it is asked again."""
    for _ in range(TRIES):
        status, answer = client.post(envelope("knock", osol=options(number)))
        if status == 200:
            return told("knock", 0, returned(answer))[3]
        time.sleep(0.5)
    sys.exit(f"a knock at the server of os-{number} is answered {status}: the machine is too busy for the proxy's checks, or the server is gone")


def only_users_come_in(machines):
    """Whoever isn't on the list gets 401, and without TLS nobody gets an answer of a server."""
    with_name, statuses = ProxyClient(machines), []
    statuses.append(with_name.post(envelope("knock"))[0])
    with_name.close()
    wrong = ProxyClient(machines, PASSWORD + "r")
    statuses.append(wrong.post(envelope("knock"))[0])
    wrong.close()
    context = ssl.create_default_context(cafile=machines.certificate)
    for url in (f"https://localhost:{machines.port}/os", f"http://localhost:{machines.port}/os"):
        try:
            with urllib.request.urlopen(urllib.request.Request(url, envelope("knock")), context=context if url.startswith("https") else None, timeout=5) as answer:
                statuses.append(answer.status)
        except urllib.error.HTTPError as failure:
            statuses.append(failure.code)
        except OSError:
            statuses.append(0)
    print(f"{USER} gets {statuses[0]}, with a wrong password {statuses[1]}, nobody {statuses[2]}, and without TLS {statuses[3] or 'no answer'}")
    return statuses[:3] == [200, 401, 401] and statuses[3] in (0, 400)


def long_calls_find_their_server(machines):
    """A call as long as may be is brought to its job's server, though the job's name stands behind the instance; a longer one gets 413."""
    client, right = ProxyClient(machines), 0
    numbers = numbers_of_all(client)
    for number in numbers.values():
        rest = len(envelope("send", osil="<!---->" + instance(number % 1000, 3), osol=options(number)))
        parts = {"osil": f"<!--{'x' * (LONGEST - rest)}-->" + instance(number % 1000, 3), "osol": options(number)}
        body = envelope("send", **parts)
        text = returned(client.post(body)[1]) if len(body) == LONGEST else len(body)
        mark = ""
        for _ in range(500):
            document = returned(client.post(envelope("retrieve", osol=options(number)))[1])
            mark = re.search(r'<var idx="0">(\d+)</var>', document)
            if mark:
                break
            time.sleep(0.01)
        right += text == "true" and bool(mark) and int(mark.group(1)) == number % 1000
    status = client.post(envelope("solve", osil="x" * LONGEST))[0]
    client.close()
    print(f"{right} of {len(numbers)} sends of {LONGEST} bytes came to their server; a longer call gets {status}")
    return right == len(numbers) == len(NAMES) and status == 413


def other_forms_find_their_server(machines):
    """A job's name as other clients write it: as a CDATA section, with attributes, prefixes, white space."""
    client, wrong = ProxyClient(machines), []
    for name, number in numbers_of_all(client).items():
        for text in (
            f"<![CDATA[<osol><general><jobID>os-{number}</jobID></general></osol>]]>",
            f"&lt;o:osol&gt;&lt;o:general&gt;&lt;o:jobID lang='en'&gt;\n  os-{number}\n&lt;/o:jobID&gt;&lt;/o:general&gt;&lt;/o:osol&gt;",
            f"&#60;osol>&#x3C;general>&#x3c;jobID>&lt;!-- a -->os-{number}&#60;/jobID>&#60;/general>&#60;/osol>",
        ):
            body = f"<e:Envelope xmlns:e='e'><e:Body><e:retrieve><osol>{text}</osol></e:retrieve></e:Body></e:Envelope>".encode()
            status, answer = client.post(body)
            if status != 200 or client.server != name or "<status>issued<" not in returned(answer):
                wrong.append((name, text, status, answer))
    client.close()
    print(f"of 9 retrieves in other forms {len(wrong)} weren't answered by their server {wrong[:1] or ''}")
    return not wrong


def comes_back(machines):
    """A server that is started anew takes jobs again, gives none of its old numbers, and knows none of its old jobs."""
    client = ProxyClient(machines)
    old = 2 * NUMBERS + (int(time.time()) - 3600) * 100_000  # of a run an hour ago
    machines.start("two")
    machines.wait_for({name: "UP" for name in NAMES})
    numbers = numbers_of_all(client)
    document = returned(client.post(envelope("retrieve", osol=options(old)))[1])
    print(f"server two is back: it gives os-{numbers.get('two')}, and says of os-{old}: {re.search('<message>(.*?)</message>', document).group(1)}")
    client.close()
    return numbers.get("two", 0) > old and "unknown job" in document and client.server == "two"


def drains(machines):
    """A server that is drained gets no new jobs, and answers for those that it has."""
    client = ProxyClient(machines)
    kept = numbers_of_all(client)["three"]
    machines.admin("set server any/three state drain")
    after = numbers_of_all(client)
    state = re.search("<status>(.*?)</status>", returned(client.post(envelope("retrieve", osol=options(kept)))[1])).group(1)
    server = client.server
    machines.admin("set server any/three state ready")
    again = numbers_of_all(client)
    client.close()
    print(f"drained, server three gives {'a' if 'three' in after else 'no'} number, and says that its job is {state}; ready, it gives {'one' if 'three' in again else 'none'}")
    return set(after) == {"one", "two"} and state == "issued" and server == "three" and "three" in again


def by_the_python_client(machines):
    """The client of `clients/python` comes in with TLS and a password, and is told what the proxy answers in a server's place."""
    url, context = f"https://localhost:{machines.port}", ssl.create_default_context(cafile=machines.certificate)
    server, told_of = gubnatris.Server(url, user=USER, password=PASSWORD, context=context), {}
    objectives = [str(server.solve(Path("examples", f"{name}.osil")).objective) for name in ("capital_budget", "knapsack", "transport")]
    wrong = {
        "a wrong password": lambda: gubnatris.Server(url, user=USER, password="", context=context).jobs(),
        "a certificate it doesn't trust": lambda: gubnatris.Server(url, user=USER, password=PASSWORD).jobs(),
        "a job of server two, which is down": lambda: server.result(f"os-{2 * NUMBERS}"),
    }
    for name, call in wrong.items():
        try:
            call()
        except gubnatris.Error as failure:
            told_of[name] = f"{type(failure).__name__}{f' {failure.status}' if isinstance(failure, gubnatris.Status) else ''}"
    print(f"the Python client gets {', '.join(objectives)}; and for " + ", for ".join(f"{name} {it}" for name, it in told_of.items()))
    return objectives == ["42", "30", "6147/40"] and list(told_of.values()) == ["Status 401", "NotReached", "Status 503"]


def answers_within(addresses):
    """The statuses of three long calls and a short one behind them, from a server within so many addresses, and whether it goes on."""
    port = free_port()
    with subprocess.Popen(["prlimit", f"--as={addresses}", "deploy/serve", "1", str(port)], stdout=subprocess.PIPE) as server:
        server.stdout.readline()
        statuses = []
        for osil in ["<a>" + "<b/>" * 380_000 + "</a>"] * 3 + ["<a/>"]:
            client = Client(port)
            statuses.append(client.post(envelope("solve", osil=osil))[0])
            client.close()
        ended = server.poll()
        server.kill()
    print(f"a server within {addresses} bytes answers {', '.join(map(str, statuses[:3]))} to long calls, and {statuses[3]} to a short one behind them")
    return statuses, ended is None


def short_of_memory(_):
    """A server within some addresses answers long calls; within fewer it answers 503 to calls for which they aren't enough, and goes on."""
    enough, few = answers_within(ADDRESSES), answers_within(FEW_ADDRESSES)
    return enough == ([200] * 4, True) and 503 in few[0][:3] and few[0][3] == 200 and few[1]


def none_left(machines):
    """Where all servers are down, each call gets 503."""
    client = ProxyClient(machines)
    for name in NAMES:
        machines.kill(name)
    machines.wait_for({name: "DOWN" for name in NAMES})
    statuses = {client.post(envelope(name))[0] for name in ("getJobID", "solve", "knock", "retrieve")}
    client.close()
    print(f"without a server each call gets {', '.join(map(str, sorted(statuses)))}")
    return statuses == {503}


def main():
    calls = int(sys.argv[1]) if len(sys.argv) > 1 else 2_000
    with Machines() as machines:
        good = [tried(machines) for tried in (only_users_come_in, long_calls_find_their_server, other_forms_find_their_server, long_searches_hold_nobody_up)]
    with Machines() as machines:
        good.append(kill_beside_clients(machines, calls))
        good += [tried(machines) for tried in (by_the_python_client, comes_back, drains, none_left, short_of_memory)]
    good.append(takeover.take_over())
    print(f"{sum(good)} passed, {len(good) - sum(good)} failed")
    return not all(good)


if __name__ == "__main__":
    sys.exit(main())
