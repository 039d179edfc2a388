"""What a journal keeps over crashes: `serve --journal` under recorded clients, ended by `kill -9` at a random moment, and opened again.

Each client asks for numbers, sends texts, retrieves and kills, and writes down what it was answered, and what it asked that wasn't answered.
After each crash the journal is opened again and every job is asked for. What was acknowledged is there: a number stays given, and is given
once; a job goes one way, from issued to sent to finished or killed to given up, so no answer that was sent later tells less; and a document
that was shown is shown again with the same bytes.

All answers of every second run, over all crashes, stand in one order (`histories.py`). A call that the crash left without an answer was made or not:
a knock behind the crash tells which numbers were given, and which jobs have texts. A job that ran when the power went waits again, and no order has
that where somebody was told that it ran, or that it waits while a later one is finished; so the last that clients ask before such a crash are numbers,
and texts that are sent, and they go on once no job waits.

Behind every fifth crash the journals are written again by `compact`, and the new files take their place; every second time that is killed too, and
the new file is then none, or one that opens.

    python3 tools/crashes.py [TIMES]     so many crashes, 200 where none are asked for
"""

import hashlib
import os
import random
import re
import resource
import signal
import subprocess
import sys
import tempfile
import threading
import time

import histories
from serve_clients import instance, told
from serving import PROGRAM, Client, Server, envelope, options, returned

CLIENTS = 6
LONGEST = 0.25
LAST = 0.1
# how far a job has come, as its table tells it: what nobody may see less of again
STAGE = {"issued": 0, "waiting": 1, "running": 1, "finished": 2, "killed": 2, "unknown": 3}
INSTANCE = '<osil><instanceData><variables><var lb="0" ub="{mark}"/></variables><objectives><obj maxOrMin="max"><coef idx="0">1</coef></obj></objectives></instanceData></osil>'
RECORDS = bytes.fromhex("01010102000000000000000100000001610000000000")
# numbers begin with 7; an enter, an issue, a send, a mark, a finish without a document, a kill, two that are given up, an issue
ALL_KINDS = bytes.fromhex(
    "01080000000000000007" "0103000000016100000001 62" "0101" "010200000000000000080000000163 0000000164" "01060000000000000007"
    "0104000000000000000700" "01050000000000000008" "01070000000000000008" "01070000000000000007" "0101" "00"
)


class Known:
    """What is known of the jobs of one journal, from all answers of all clients."""

    def __init__(self):
        self.lock = threading.Lock()
        self.stage, self.digest, self.asked_to_go = {}, {}, set()

    def given(self, number):
        with self.lock:
            if number in self.stage:
                raise SystemExit(f"os-{number} was given twice")
            self.stage[number] = 0

    def least(self, number, stage):
        """An answer says that the job has come so far."""
        with self.lock:
            self.stage[number] = max(self.stage.get(number, 0), stage)

    def seen(self, number, before, state, digest):
        """A state was told by an answer whose request was sent when so much was known."""
        stage = STAGE[state]
        with self.lock:
            if stage < before:
                raise SystemExit(f"os-{number} was at {before}, and is {state}")
            if stage == 3 and number not in self.asked_to_go:
                raise SystemExit(f"os-{number} is gone, and nobody gave it up")
            if digest and self.digest.setdefault(number, digest) != digest:
                raise SystemExit(f"os-{number} has another document")
            self.stage[number] = max(self.stage[number], stage)

    def before(self, number):
        with self.lock:
            return self.stage[number]

    def some(self):
        with self.lock:
            return random.choice(list(self.stage)) if self.stage else None


def state_of(number, text):
    """The state that a result document tells, and a digest of the document of a finished job, whose point is the number that was sent."""
    state = re.search(r"<status>(\w+)</status>", text).group(1)
    if state != "finished":
        return state, None
    if f'<var idx="0">{number}</var>' not in text:
        raise SystemExit(f"os-{number} has the document of another instance: {text}")
    return state, hashlib.sha256(text.encode()).hexdigest()


def ask(client, call, **parts):
    status, body = client.post(envelope(call, **parts))
    if status != 200:
        raise SystemExit(f"{call} was answered {status}: {body!r}")
    return returned(body)


def issue(client, known):
    number = int(ask(client, "getJobID", osol="").removeprefix("os-"))
    known.given(number)
    return number


def send(client, known, number):
    taken = ask(client, "send", osil=INSTANCE.format(mark=number), osol=options(number))
    if taken == "true":
        known.least(number, 1)


def retrieve(client, known, number):
    before = known.before(number)
    known.seen(number, before, *state_of(number, ask(client, "retrieve", osol=options(number))))


def kill(client, known, number):
    with known.lock:
        known.asked_to_go.add(number)
    ask(client, "kill", osol=options(number))


def talk(port, known, until):
    """One client, until the server is gone."""
    try:
        client = Client(port)
        while time.monotonic() < until:
            number = known.some()
            turn = random.random()
            if number is None or turn < 0.3:
                number = issue(client, known)
                if turn < 0.25:
                    send(client, known, number)
            elif turn < 0.5:
                send(client, known, number)
            elif turn < 0.9:
                retrieve(client, known, number)
            else:
                kill(client, known, number)
    except (OSError, ValueError, EOFError, IndexError):
        pass  # the server was killed


def all_there(port, known):
    """Every number that was given is asked for."""
    client = Client(port)
    for number in list(known.stage):
        retrieve(client, known, number)


def crash(journal, known, words=()):
    """One run that is killed at a random moment."""
    with Server(2, CLIENTS, behind=words, journal=journal) as server:
        all_there(server.port, known)
        until = time.monotonic() + random.uniform(0.005, LONGEST)
        threads = [threading.Thread(target=talk, args=(server.port, known, until + 5)) for _ in range(CLIENTS)]
        for thread in threads:
            thread.start()
        time.sleep(max(0, until - time.monotonic()))
        os.kill(server.process.pid, signal.SIGKILL)
        for thread in threads:
            thread.join()


class Record:
    """What clients were answered over all crashes, and what they asked that wasn't answered."""

    def __init__(self):
        self.lock, self.calls, self.open, self.numbers, self.held, self.sends = threading.Lock(), [], {}, set(), [], 0

    def ask(self, who, client, name, job=None):
        """One call, written down before it is sent and behind its answer."""
        sent, parts = time.monotonic_ns(), {}
        with self.lock:
            self.sends += name == "send"
            mark = self.sends if name == "send" else None
            self.open[who] = (sent, who, name, job, mark)
        if name == "send":
            parts["osil"] = instance(mark, 0)
        if name == "knock":
            parts["ospl"] = ""
        status, body = client.post(envelope(name, osol=options(job) if job else "", **parts))
        if status != 200:
            raise SystemExit(f"{name} was answered {status}: {body!r}")
        self.take(histories.Call(who, sent, time.monotonic_ns(), name, job, mark, told(name, job, returned(body))))
        with self.lock:
            del self.open[who]

    def take(self, call):
        with self.lock:
            self.calls.append(call)
            if call.name == "getJobID":
                self.numbers.add(call.answer)
                self.held.append(call.answer)
            elif call.name == "kill" and call.answer[3] is None and call.job in self.held:
                self.held.remove(call.job)

    def some(self):
        with self.lock:
            return random.choice(self.held) if self.held else None

    def settle(self, who, client):
        """Which calls that a crash left without an answer were made, by what a knock tells behind it, once nobody waits to be run."""
        left, now = sorted(self.open.values()), time.monotonic_ns()
        self.open.clear()
        while told("knock", None, returned(client.post(envelope("knock", osol="", ospl=""))[1]))[1]:
            pass
        self.ask(who, client, "knock")
        _, _, total, jobs = self.calls[-1].answer
        given = sorted(set(range(1, total + 1)) - self.numbers)
        issues = [it for it in left if it[2] == "getJobID"]
        if len(given) > len(issues) or max(self.numbers, default=0) > total:
            raise SystemExit(f"{given} were given, of {total}, and {len(issues)} asked for")
        for number, (sent, asker, name, _, _) in zip(given, issues):
            self.take(histories.Call(asker, sent, now, name, None, None, number))
        taken = {call.job for call in self.calls if call.name == "send" and call.answer}
        for sent, asker, name, job, mark in left:
            if name == "send" and jobs.get(job) == histories.FINISHED and job not in taken:
                taken.add(job)
                self.take(histories.Call(asker, sent, now, name, job, mark, True))


def talk_in_order(who, client_of, record, last, ready):
    try:
        client, is_last = client_of(), False
        while True:
            if last.is_set() and not is_last:
                is_last = True
                ready.release()
            job, turn = record.some(), random.random() * (0.45 if is_last else 1)
            if job is None or turn < 0.2:
                record.ask(who, client, "getJobID")
            elif turn < 0.45:
                record.ask(who, client, "send", job)
            elif turn < 0.98:
                record.ask(who, client, "kill" if turn < 0.7 else "retrieve", job)
            else:
                record.ask(who, client, "knock")
    except (OSError, ValueError, EOFError, IndexError):
        pass  # the server was killed


def crash_in_order(journal, record):
    with Server(0, CLIENTS, journal=journal) as server:
        record.settle(CLIENTS, Client(server.port))
        last, ready = threading.Event(), threading.Semaphore(0)
        threads = [threading.Thread(target=talk_in_order, args=(who, lambda: Client(server.port), record, last, ready)) for who in range(CLIENTS - 1)]
        for thread in threads:
            thread.start()
        time.sleep(random.uniform(0.005, LONGEST))
        last.set()
        for _ in threads:
            ready.acquire()
        time.sleep(random.uniform(0, LAST))
        os.kill(server.process.pid, signal.SIGKILL)
        for thread in threads:
            thread.join()


def session(journal, requests=b""):
    ran = subprocess.run([PROGRAM, "session", "--journal", journal], input=requests, capture_output=True, check=False)
    return ran.returncode, ran.stdout


def written_again(journal, killed):
    """Whether the journal was written again, and the new file took its place."""
    new = journal + ".new"
    with subprocess.Popen([PROGRAM, "compact", journal, new]) as process:
        if killed:
            time.sleep(random.uniform(0, 0.02))
            process.kill()
        status = process.wait()
    if status == 0:
        os.replace(new, journal)
    elif not killed:
        raise SystemExit(f"compact ended with {status}")
    elif os.path.exists(new):
        if session(new) != (0, b""):
            raise SystemExit("a compaction that was killed left a journal that doesn't open")
        os.remove(new)
    return status == 0


def behind_record(file, at, jobs, given):
    """Where the record behind an open gate ends, by the rules (`docs/rules/journal.md`), once its effect is made; none where it isn't possible, or no
    gate stands behind it. Documents aren't looked into."""
    kind, place = file[at : at + 1], at + 1

    def field(size):
        nonlocal place
        place += size
        if place > len(file):
            raise IndexError
        return file[place - size : place]

    def text():
        size = int.from_bytes(field(4), "big")
        if size > 4_194_304:
            raise IndexError
        field(size)

    number, moves = None, {2: ("issued", "waiting"), 4: ("waiting marked", "finished"), 5: ("issued waiting", "killed"), 6: ("waiting", "marked"), 7: ("killed finished marked", None)}
    try:
        which = kind[0]
        if which in (2, 4, 5, 6, 7, 8):
            number = int.from_bytes(field(8), "big")
        if which in (2, 3):
            text()
            text()
        if which == 4:
            kept = field(1)[0]
            if kept > 1:
                return None
            if kept:
                text()
        if which in (1, 3):
            jobs[given["first"] + given["many"]] = "issued" if which == 1 else "waiting"
            given["many"] += 1
        elif which == 8:
            if given["many"] or not 1 <= number <= 2**62:
                return None
            given["first"] = number
        elif which not in moves or jobs.get(number) not in moves[which][0].split():
            return None
        else:
            jobs[number] = moves[which][1]
        return place if place < len(file) else None
    except IndexError:
        return None


def damage(file):
    """The gate at which a file is damaged, or none."""
    at, jobs, given = 0, {}, {"first": 1, "many": 0}
    while len(file) > 1 and file[at] == 1:
        behind = behind_record(file, at + 1, jobs, given)
        if behind is None:
            return at
        at = behind
    return None


def changed_bytes(folder):
    """Journals, each of their bytes changed: each is damaged at the gate that the rules say, and else read. A document that is kept would be judged."""
    journal, told = os.path.join(folder, "changed"), {}
    changes = [(RECORDS, at, byte) for at in range(len(RECORDS)) for byte in range(256)]
    changes += [(ALL_KINDS, at, ALL_KINDS[at] ^ bit) for at in range(len(ALL_KINDS)) for bit in (1, 2, 4, 8, 16, 32, 64, 128)]
    for records, at, byte in changes:
        changed = records[:at] + bytes([byte]) + records[at + 1 :]
        with open(journal, "wb") as file:
            file.write(changed)
        where = damage(changed)
        found, right = session(journal), (0, b"") if where is None else (9, b"damaged at %d\n" % where)
        if found != right:
            raise SystemExit(f"byte {at} of {records.hex()} as {byte}: {found}, and not {right}")
        told[where] = told.get(where, 0) + 1
    print(f"{len(changes)} journals with a byte changed; damaged at: {dict(sorted((str(k), n) for k, n in told.items()))}")


def full_disk(folder):
    """A file that may grow to some bytes only: calls are answered Server.Disk from then on, and what was acknowledged stays."""
    journal, known = os.path.join(folder, "full"), Known()

    def limit():
        signal.signal(signal.SIGXFSZ, signal.SIG_IGN)
        resource.setrlimit(resource.RLIMIT_FSIZE, (600, 600))

    with Server(0, 2, journal=journal, before=limit) as server:
        client = Client(server.port)
        refused = 0
        for _ in range(500):
            status, body = client.post(envelope("getJobID", osol=""))
            if status == 200:
                known.given(int(returned(body).removeprefix("os-")))
            elif b"Server.Disk" in body:
                refused += 1
            else:
                raise SystemExit(f"getJobID was answered {status}: {body!r}")
    if not refused or not known.stage:
        raise SystemExit("the file wasn't full")
    with Server(0, 2, journal=journal) as server:
        all_there(server.port, known)
    print(f"full: {len(known.stage)} numbers kept, {refused} calls refused")


def main():
    times = int(sys.argv[1]) if sys.argv[1:] else 200
    with tempfile.TemporaryDirectory() as folder:
        changed_bytes(folder)
        full_disk(folder)
        journal, known = os.path.join(folder, "journal"), Known()
        ordered, record = os.path.join(folder, "ordered"), Record()
        again, grown = 0, 0
        for turn in range((times + 1) // 2):
            crash(journal, known)
            crash_in_order(ordered, record)
            grown = max(grown, os.path.getsize(journal))
            if turn % 5 == 4:
                again += sum(written_again(it, turn % 10 == 9) for it in (journal, ordered))
        with Server(0, 2, journal=journal) as server:
            all_there(server.port, known)
        with Server(0, 2, journal=ordered) as server:
            record.settle(CLIENTS, Client(server.port))
        placed, hidden, most = histories.check(record.calls)
        print(f"{times} crashes: {len(known.stage)} numbers, {len(known.digest)} documents, {grown} bytes at most; {again} times written again")
        print(f"one order: {placed} calls of {len(record.numbers)} jobs, at most {most} orders open at once, {os.path.getsize(ordered)} bytes")


if __name__ == "__main__":
    main()
