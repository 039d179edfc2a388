"""Jobs a second of 1, 2 and 3 servers behind the proxy, beside one server that is called directly, and how long a small call takes.

Each server has one worker. Clients send jobs, ask until each is finished, ever less often, read it and give it up; the time is that from the first
number to the last document. Connections of the clients stay, directly in the clear and to the proxy over TLS. The rows take turns, and
each shows the best of its rounds, as what else the machine does comes and goes. The last column has the processor's milliseconds that servers
and proxy took for a job, which other work changes less: so many servers finish so many times as many jobs where each has as much of a
processor as it takes, and the proxy the rest.
"""

import contextlib
import functools
import os
import statistics
import subprocess
import threading
import time

import programs
from proxied import NAMES, Machines, ProxyClient
from serving import Client, envelope, free_port, options, returned

CLIENTS = 12
JOBS = 240  # so that what passes between the last document and the ask that sees it is little of the time
CALLS = 200
ROUNDS = 3
LONGEST_PAUSE = 0.1


@contextlib.contextmanager
def direct():
    """One server, without the proxy; what makes a client of it."""
    port = free_port()
    with subprocess.Popen(["deploy/serve", "1", str(port)], stdout=subprocess.PIPE) as server:
        if server.stdout.readline() != b"listening\n":
            raise SystemExit(f"serve ended with {server.wait()}")
        yield lambda: Client(port), lambda: [server]
        server.kill()


@contextlib.contextmanager
def behind(count):
    with Machines(count) as machines:
        yield lambda: ProxyClient(machines), lambda: [*machines.servers.values(), machines.proxy]


def asked(client, name, **parts):
    status, body = client.post(envelope(name, **parts))
    if status != 200:
        raise ValueError(f"{name} was answered {status}")
    return returned(body)


def send_jobs(client, count, osil, failures):
    """Sends so many jobs, then waits for each, reads it and gives it up."""
    try:
        numbers = []
        for _ in range(count):
            numbers.append(int(asked(client, "getJobID")[3:]))
            if asked(client, "send", osil=osil, osol=options(numbers[-1])) != "true":
                raise ValueError(f"os-{numbers[-1]} wasn't taken")
        for number in numbers:
            text, pause = "", 0.02
            while "<status>finished" not in text:
                time.sleep(pause)
                pause = min(2 * pause, LONGEST_PAUSE)
                text = asked(client, "retrieve", osol=options(number))
            if 'type="optimal"' not in text:
                raise ValueError(f"os-{number} is {text[:200]}")
            asked(client, "kill", osol=options(number))
    except (OSError, ValueError) as failure:
        failures.append(repr(failure))


def measured(served, osil):
    """Jobs a second, the milliseconds of a small call, the median, and those of processors that the servers and the proxy took for a job."""
    failures = []
    with served as (client_of, processes):
        clients = [client_of() for _ in range(CLIENTS)]
        threads = [threading.Thread(target=send_jobs, args=(client, JOBS // CLIENTS, osil, failures)) for client in clients]
        begun, before = time.monotonic(), sum(map(processor_seconds, processes()))
        for thread in threads:
            thread.start()
        for thread in threads:
            thread.join()
        spent = sum(map(processor_seconds, processes())) - before
        seconds, times = time.monotonic() - begun, []
        for _ in range(CALLS):
            begun = time.monotonic()
            asked(clients[0], "retrieve", osol=options(0))
            times.append(time.monotonic() - begun)
        for client in clients:
            client.close()
    if failures:
        raise SystemExit("\n".join(failures))
    return JOBS / seconds, statistics.median(times) * 1e3, spent / JOBS * 1e3


def processor_seconds(process):
    with open(f"/proc/{process.pid}/stat", encoding="ascii") as stat:
        fields = stat.read().rpartition(")")[2].split()
    return (int(fields[11]) + int(fields[12])) / os.sysconf("SC_CLK_TCK")


def main():
    program = programs.sparse(100)
    osil = programs.osil(program)
    print(f"{JOBS} jobs, {program.name}, of {CLIENTS} clients; {os.cpu_count()} processors\n")
    print("| servers | jobs a second | to one directly | ms a small call | to one directly | processors ms a job |\n|---|---|---|---|---|---|", flush=True)
    rows = {"1, directly": direct} | {f"{count} behind the proxy": functools.partial(behind, count) for count in range(1, len(NAMES) + 1)}
    rounds = [{name: measured(serve(), osil) for name, serve in rows.items()} for _ in range(ROUNDS)]
    best = {name: (max(it[name][0] for it in rounds), min(it[name][1] for it in rounds), min(it[name][2] for it in rounds)) for name in rows}
    one, small, _ = best["1, directly"]
    for name, (jobs, call, spent) in best.items():
        print(f"| {name} | {jobs:.1f} | {jobs / one:.2f} | {call:.2f} | {call / small:.1f} | {spent:.0f} |")


if __name__ == "__main__":
    main()
