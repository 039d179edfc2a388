"""A server and its standby behind the proxy, on one journal: whoever has it is killed under recorded clients, and the other one takes it over.

All calls of all clients, over all takeovers, have to stand in one order (`tools/histories.py`), so nothing that was acknowledged is lost. What
calls did that got no answer is found by a knock behind each takeover, as `tools/crashes.py` finds it.
"""

import os
import random
import re
import signal
import subprocess
import tempfile
import threading
import time

import crashes
import histories
from proxied import Machines, ProxyClient
from serve_clients import told
from serving import envelope, free_port, options, returned

CLIENTS = 6
TIMES = 6
IN_A_ROW = 5
LONGEST = 10.0  # seconds in which calls have to be answered again
MOST_PRESSURE = 50.0  # percent of the last minute in which something waited for a processor, above which seconds of the clock say nothing
MARKED = re.compile(r"^( *)#(server \S+-standby )", re.M)


class Pair(Machines):
    """Server one and its standby, two processes that both want one journal, and the proxy, which has the lines for a standby."""

    def __init__(self):
        super().__init__(1)
        self.journals = tempfile.TemporaryDirectory()
        self.own = {"one": free_port(), "one-standby": free_port()}

    def start(self, name):
        """Starts one of both. Whoever comes second waits, as deploy/standby has it, and writes nothing until it has the journal."""
        variables = {"JOURNALS": self.journals.name, "WORKERS": "0"}
        words = ["deploy/standby", "1", str(self.own[name])]
        process = subprocess.Popen(words, stdout=subprocess.PIPE, env=os.environ | variables, start_new_session=True)
        self.servers[name] = process
        if len(self.servers) == 1 and process.stdout.readline() != b"listening\n":
            raise SystemExit(f"deploy/standby ended with {process.wait()}")

    def kill(self, name):
        """Kills all of one of both at once, as a power cut would."""
        process = self.servers.pop(name)
        os.killpg(process.pid, signal.SIGKILL)
        process.wait()
        process.stdout.close()

    def start_proxy(self, where):
        with open("deploy/haproxy.cfg", encoding="utf-8") as file:
            text, found = MARKED.subn(r"\1\2", file.read())
        if found != 2:
            raise SystemExit(f"deploy/haproxy.cfg has {found} lines for a standby")
        with open(f"{where}/haproxy.cfg", "w", encoding="utf-8") as file:
            file.write(text)
        self.ports["one"], self.configuration = self.own["one"], f"{where}/haproxy.cfg"
        os.environ["GUBNATRIS_1_STANDBY"] = f"127.0.0.1:{self.own['one-standby']}"
        super().start_proxy(where)
        self.start("one-standby")

    def __exit__(self, *_):
        for name in list(self.servers):
            self.kill(name)
        super().__exit__()
        self.journals.cleanup()


class Record(crashes.Record):
    """What clients of the proxy were answered, the jobs numbered from 1."""

    def begin(self, client):
        """The first number, from which the others are told."""
        sent = time.monotonic_ns()
        self.base = int(returned(client.post(envelope("getJobID"))[1])[3:]) - 1
        self.take(histories.Call(CLIENTS, sent, time.monotonic_ns(), "getJobID", None, None, 1))

    def ask(self, who, client, name, job=None):
        sent, parts = time.monotonic_ns(), {}
        with self.lock:
            self.sends += name == "send"
            mark = self.sends if name == "send" else None
            self.open[who] = (sent, who, name, job, mark)
        if name == "send":
            parts["osil"] = crashes.instance(mark, 0)
        if name == "knock":
            parts["ospl"] = ""
        status, body = client.post(envelope(name, osol=options(job + self.base) if job else "", **parts))
        if status == 503:  # the proxy's own answer, where nobody is up: the call went to no server
            with self.lock:
                del self.open[who]
        if status != 200:
            raise ConnectionError(status)
        answer = self.shifted(name, told(name, job and job + self.base, returned(body)))
        self.take(histories.Call(who, sent, time.monotonic_ns(), name, job, mark, answer))
        with self.lock:
            del self.open[who]

    def shifted(self, name, answer):
        if name == "getJobID":
            return answer - self.base
        if name == "knock":
            return (*answer[:3], {number - self.base: state for number, state in answer[3].items()})
        return answer


class Ending(ProxyClient):
    """A client that makes no call any more once it is told so."""

    def __init__(self, machines, over):
        super().__init__(machines)
        self.over = over

    def post(self, body):
        if self.over.is_set():
            raise ConnectionError("no more calls")
        return super().post(body)


def work(machines, record, seconds, name):
    """Clients at work for so long; then, beside their last calls, numbers and texts alone, whoever serves is killed. For how many seconds no call
    was answered."""
    last, ready, over = threading.Event(), threading.Semaphore(0), threading.Event()

    def talk(who):
        crashes.talk_in_order(who, lambda: Ending(machines, over), record, last, ready)
        ready.release()  # also where it ended sooner, as one does that the proxy tells that nobody is up, when its checks come late

    threads = [threading.Thread(target=talk, args=(who,), daemon=True) for who in range(CLIENTS - 1)]
    for thread in threads:
        thread.start()
    time.sleep(seconds)
    last.set()
    for _ in threads:
        ready.acquire()
    time.sleep(random.uniform(0, 0.1))
    machines.kill(name)
    spent = answered_again(machines, time.monotonic())
    over.set()
    for thread in threads:
        thread.join()
    return spent


def answered_again(machines, since):
    """For how many seconds no call was answered, from a moment on. It comes back once some calls were, one after another."""
    found, answered = None, 0
    while answered < IN_A_ROW:
        client, is_answered = ProxyClient(machines), False
        try:
            is_answered = client.post(envelope("knock", ospl=""))[0] == 200
        except (OSError, IndexError, ValueError):
            pass
        finally:
            client.close()
        found = found or (time.monotonic() - since if is_answered else None)
        answered = answered + 1 if is_answered else 0
        if time.monotonic() - since > 300:
            raise SystemExit("nobody answers five minutes behind a kill")
        time.sleep(0.02)
    return found


def take_over(times=TIMES):
    """Kills whoever serves so many times, and has the other one go on; whether all calls stand in one order, and are answered soon enough."""
    with Pair() as machines:
        client, record, spent, serving = ProxyClient(machines), Record(), [], "one"
        record.begin(client)

        for _ in range(times):
            spent.append(work(machines, record, random.uniform(1, 3), serving))
            record.settle(CLIENTS, ProxyClient(machines))
            gone, serving = serving, next(iter(machines.servers))
            machines.start(gone)
        calls = len(record.calls)
        placed, _, _ = histories.check(record.calls)
        client.close()
    print(f"{times} takeovers: {calls} calls of {CLIENTS} clients, of {len(record.numbers)} jobs, stand in one order ({placed} placed) over both servers")
    print(f"calls were answered again {', '.join(f'{it:.1f}' for it in spent)} s behind the kills; {LONGEST:.0f} are allowed")
    is_soon = max(spent) <= LONGEST
    if not is_soon and pressure() > MOST_PRESSURE:
        print("which isn't judged: other work has the processors")
        is_soon = True
    return is_soon and placed == calls


def pressure():
    """The percent of the last minute in which something waited for a processor; none where the system doesn't say it."""
    try:
        with open("/proc/pressure/cpu", encoding="ascii") as file:
            return float(re.search(r"some .*avg60=([0-9.]+)", file.read()).group(1))
    except OSError:
        return 0.0
