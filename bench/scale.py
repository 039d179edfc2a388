"""What a server holds and says grows with: memory and journal a job, the answer of a knock, the opening of a journal.

    python3 bench/scale.py [JOBS]     so many jobs of each kind, 2,000 where none are asked for
"""

import os
import resource
import subprocess
import sys
import tempfile
import time

import programs
from serving import PROGRAM, Client, Server, envelope, options, returned


def cost_of(words, given=b""):
    """The processor seconds and the peak memory of a run."""
    before = resource.getrusage(resource.RUSAGE_CHILDREN)
    with subprocess.Popen(words, stdin=subprocess.PIPE, stdout=subprocess.DEVNULL) as process:
        process.communicate(given)
    after = resource.getrusage(resource.RUSAGE_CHILDREN)
    return after.ru_utime + after.ru_stime - before.ru_utime - before.ru_stime


def issue(client):
    return int(returned(client.post(envelope("getJobID"))[1])[3:])


def send(client, osil):
    number = issue(client)
    client.post(envelope("send", osil=osil, osol=options(number)))
    return number


def wait(client, number):
    while "<status>finished" not in returned(client.post(envelope("retrieve", osol=options(number)))[1]):
        time.sleep(0.002)


def processor_seconds(server):
    with open(f"/proc/{server.process.pid}/stat", encoding="ascii") as stat:
        fields = stat.read().rpartition(")")[2].split()
    return (int(fields[11]) + int(fields[12])) / os.sysconf("SC_CLK_TCK")


def row(name, osil, jobs, folder):
    """So many jobs of one kind: memory and journal of one, the knock behind them, and the journal opened again."""
    journal = os.path.join(folder, "journal")
    with Server(1, 2, journal=journal) as server:
        client = Client(server.port)
        wait(client, send(client, programs.osil(programs.knapsack(5, 1))))
        memory, length = server.memory(), os.path.getsize(journal)
        begun = processor_seconds(server)
        for _ in range(jobs):
            number = send(client, osil) if osil else issue(client)
        if osil:
            wait(client, number)
        spent = processor_seconds(server) - begun
        grown, written = server.memory() - memory, os.path.getsize(journal) - length
        begun = processor_seconds(server)
        for _ in range(20):
            status, answer = client.post(envelope("knock", ospl=""))
        knock = (processor_seconds(server) - begun) / 20
        client.close()
    opened = cost_of([PROGRAM, "session", "--journal", journal])
    os.remove(journal)
    print(
        f"| {name} | {len(osil.encode()) if osil else 0} | {jobs} | {grown / jobs:.0f} | {written / jobs:.0f} | {spent / jobs * 1e3:.2f} | {len(answer) / (jobs + 1):.0f} | {knock * 1e3:.1f} | {opened:.2f} |",
        flush=True,
    )


def main():
    jobs = int(sys.argv[1]) if sys.argv[1:] else 2_000
    print("| jobs | instance bytes | how many | memory bytes a job | journal bytes a job | ms of a processor a job | knock's bytes a job | ms of a knock | s to open the journal |")
    print("|---|---|---|---|---|---|---|---|---|", flush=True)
    with tempfile.TemporaryDirectory() as folder:
        row("issued", None, jobs, folder)
        row("small, finished", programs.osil(programs.knapsack(5, 1)), jobs, folder)
        row("a transport of 40 variables, finished", programs.osil(programs.transport(4, 10)), jobs, folder)
        row("a transport of 600 variables, finished", programs.osil(programs.transport(20, 30)), max(1, jobs // 20), folder)


main()
