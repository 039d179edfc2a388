"""Times a journal beside SQLite: effects that are stored a second, and the opening of a journal of 1 GB.

Each client gets a number and sends texts under it, over one connection that stays: two effects, each acknowledged once it is on the disk. Beside it
as many threads store the same in one table of SQLite, each over a connection of its own: a row with a number, and then the texts in it, each
in a transaction that is on the disk when it ends (`journal_mode=WAL`, `synchronous=FULL`). Both write into one folder, on the disk and then in
memory. What SQLite doesn't do is HTTP and the table of jobs.

A journal of 1 GB has jobs with texts of 100,000 bytes that were given up, so that the table that is made of it is small: its peak of memory
is what opening takes.
"""

import os
import sqlite3
import struct
import subprocess
import sys
import tempfile
import threading
import time

from serving import PROGRAM, Client, Server, envelope, options, returned

SECONDS = 5
CLIENTS = (1, 8, 64)
OSIL = "<osil><instanceData>" + "<!-- " + "x" * 2_000 + " -->" + "</instanceData></osil>"
LARGE = 100_000
WHOLE = 1_000_000_000


def by_serve(folder, clients):
    """Effects a second. A job is given up once it is over, so that the table never fills; those kills are effects too, and count."""
    done = [0] * clients
    with Server(0, clients, journal=os.path.join(folder, "journal")) as server:
        until = time.monotonic() + SECONDS

        def talk(which):
            client = Client(server.port)
            while time.monotonic() < until:
                number = returned(client.post(envelope("getJobID", osol=""))[1]).removeprefix("os-")
                for call, parts in (("send", {"osil": OSIL}), ("kill", {}), ("kill", {})):
                    status, body = client.post(envelope(call, osol=options(number), **parts))
                    if status != 200:
                        sys.exit(f"{call} was answered {status}: {body!r}")
                done[which] += 4

        run_all(talk, clients)
    return sum(done) / SECONDS


def by_sqlite(folder, clients):
    """Transactions a second."""
    name, done = os.path.join(folder, "rows"), [0] * clients
    with sqlite3.connect(name) as made:
        made.execute("PRAGMA journal_mode=WAL")
        made.execute("CREATE TABLE jobs (number INTEGER PRIMARY KEY, state TEXT, osil TEXT)")
    until = time.monotonic() + SECONDS

    def store(which):
        link = sqlite3.connect(name, timeout=60, isolation_level=None)
        link.execute("PRAGMA synchronous=FULL")
        while time.monotonic() < until:
            number = link.execute("INSERT INTO jobs (state) VALUES ('issued')").lastrowid
            link.execute("UPDATE jobs SET state = 'waiting', osil = ? WHERE number = ?", (OSIL, number))
            link.execute("UPDATE jobs SET state = 'killed' WHERE number = ?", (number,))
            link.execute("DELETE FROM jobs WHERE number = ?", (number,))
            done[which] += 4
        link.close()

    run_all(store, clients)
    return sum(done) / SECONDS


def run_all(work, clients):
    threads = [threading.Thread(target=work, args=(which,)) for which in range(clients)]
    for thread in threads:
        thread.start()
    for thread in threads:
        thread.join()


def large_journal(name):
    """Writes a journal of 1 GB whose jobs were given up."""
    text = struct.pack(">I", LARGE) + b"x" * LARGE
    with open(name, "wb") as file:
        number = 0
        while file.tell() < WHOLE:
            number += 1
            named = struct.pack(">Q", number)
            file.write(b"\1\1" + b"\1\2" + named + text + struct.pack(">I", 0) + b"\1\5" + named + b"\1\7" + named)
        file.write(b"\0")


def opened(name):
    """Seconds and peak bytes of a session over it that is asked for nothing."""
    began = time.monotonic()
    process = subprocess.Popen([PROGRAM, "session", "--journal", name], stdin=subprocess.DEVNULL)
    _, status, usage = os.wait4(process.pid, 0)
    if status:
        sys.exit(f"the session ended with {status}")
    return time.monotonic() - began, usage.ru_maxrss * 1024


def main():
    print("effects a second: folder, clients, serve --journal, SQLite, times as many")
    for at in (".", "/dev/shm"):
        for clients in CLIENTS:
            with tempfile.TemporaryDirectory(dir=at) as folder:
                ours, theirs = by_serve(folder, clients), by_sqlite(folder, clients)
                print(f"{at:10} {clients:3} {ours:9.0f} {theirs:9.0f} {ours / theirs:6.2f}")
    with tempfile.TemporaryDirectory(dir=".") as folder:
        name = os.path.join(folder, "large")
        large_journal(name)
        seconds, peak = opened(name)
        print(f"opening {os.path.getsize(name) / 1e9:.2f} GB: {seconds:.1f} s, {peak / 2**20:.0f} MB")


main()
