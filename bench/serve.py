"""Times `serve` beside nginx by one client, alone and with two processes beside that never rest; how many jobs a second 2 workers finish
beside 1; and what a long search pays for its looks at the table.

Requests a second and the times are wrk's, with one thread, of some seconds on connections that stay. nginx has one process a processor and answers each
POST with a body of the same size, from a file. The memory is the greatest of `serve`, and of all processes of nginx together.

A server is begun anew for each row. As the table is full at 10,000 jobs, each `getJobID` goes with two kills, which give up a job
that was issued before: its rows count all three, and nginx answers each alike. What wrk does with answers in Lua would make it the
slowest of all, so it looks at none but their statuses.

A search asks the table whether it is to stop before each case and behind every 64th turn. What that costs is the processor time of the thread that runs it,
beside that of `solve`, which has no table.
"""

import os
import re
import subprocess
import sys
import tempfile
import threading
import time
from contextlib import contextmanager

import check
import programs
from serving import PROGRAM, Client, Server, envelope, free_port, options, returned

SECONDS = 5
CONNECTIONS = (1, 8, 64)
BUSY = 2
CLIENTS = 16
JOBS = 400
PAUSE = 0.02
HELD = 10
KILLED_BEHIND = 100
NODES = 100_001
SEARCHES = 5

KNOCK = """
wrk.method = "POST"
wrk.body = [[{knock}]]
wrk.headers["Content-Type"] = "text/xml; charset=utf-8"
"""

# A number, and two kills of one that was given some time before. Numbers are given in order, so one thread knows which there are.
NUMBERS = """
local turn = 0
function request()
    turn = turn + 1
    local body = [[{issue}]]
    if turn % 3 > 0 then
        body = string.format([[{kill}]], math.max(math.floor(turn / 3) - {behind}, 0))
    end
    return wrk.format("POST", nil, {["Content-Type"] = "text/xml; charset=utf-8"}, body)
end
"""

WRONG = ("not connected", "not read", "not written", "not answered within two seconds", "not answered 200")

# What went wrong is told behind wrk's own summary, by its kind, and the times in microseconds.
TELL = """
function done(summary, latency, requests)
    local errors = summary.errors
    local wrong = {errors.connect, errors.read, errors.write, errors.timeout, errors.status}
    local times = {latency:percentile(50), latency:percentile(99), latency.max}
    io.write(string.format("wrong %d %d %d %d %d\\n", unpack(wrong)))
    io.write(string.format("told %d %f %f %f %f\\n", summary.requests, summary.duration / 1e6, unpack(times)))
end
"""


def memory_of(name, pid):
    """The greatest memory, in bytes, of a process and its children."""
    pids = [pid] + [int(child) for child in subprocess.run(["pgrep", "-P", str(pid)], capture_output=True, text=True, check=False).stdout.split()]
    peak = 0
    for it in pids:
        with open(f"/proc/{it}/status", encoding="utf-8") as status:
            peak += int(re.search(name + r":\s+(\d+) kB", status.read()).group(1)) * 1024
    return peak


class Nginx:
    """nginx on a free port, which answers every POST with a body of so many bytes."""

    def __init__(self, size):
        self.size, self.port = size, free_port()

    def __enter__(self):
        self.folder = tempfile.TemporaryDirectory()
        where = self.folder.name
        os.chmod(where, 0o755)
        with open(f"{where}/os", "wb") as it:
            it.write(b"x" * self.size)
        with open(f"{where}/conf", "w", encoding="utf-8") as it:
            it.write(
                f"worker_processes auto; daemon off; pid {where}/pid; error_log stderr;\n"
                "events { worker_connections 1024; }\n"
                "http { access_log off; keepalive_requests 100000000; open_file_cache max=10; sendfile on; tcp_nopush on;\n"
                f"client_body_temp_path {where}/a; proxy_temp_path {where}/b; fastcgi_temp_path {where}/c; uwsgi_temp_path {where}/d; scgi_temp_path {where}/e;\n"
                f"server {{ listen 127.0.0.1:{self.port}; root {where}; default_type 'text/xml; charset=utf-8'; error_page 405 =200 $uri; }} }}\n"
            )
        self.process = subprocess.Popen(["nginx", "-c", f"{where}/conf"], stderr=subprocess.PIPE)
        for _ in range(100):
            try:
                Client(self.port).close()
                return self
            except ConnectionError:
                time.sleep(0.05)
        raise SystemExit("nginx doesn't answer")

    def __exit__(self, *_):
        self.process.terminate()
        self.process.wait()
        self.process.stderr.close()
        self.folder.cleanup()


def by_wrk(script, port, connections):
    """Requests a second, and of the times in milliseconds the 50th and the 99th percentile and the greatest; all were answered 200."""
    with tempfile.TemporaryDirectory() as folder:
        with open(f"{folder}/lua", "w", encoding="utf-8") as it:
            it.write(script)
        words = ["wrk", "-t", "1", "-c", str(connections), "-d", f"{SECONDS}s", "-s", f"{folder}/lua", f"http://127.0.0.1:{port}/os"]
        out = subprocess.run(words, capture_output=True, text=True, check=True).stdout
    requests, seconds, *times = (float(it) for it in re.search(r"told (.*)", out).group(1).split())
    wrong = [f"{count} {kind}" for count, kind in zip(re.search(r"wrong (.*)", out).group(1).split(), WRONG) if count != "0"]
    if wrong or not requests:
        raise SystemExit(f"of {requests:.0f} requests: {', '.join(wrong)}")
    return requests / seconds, *(it / 1e3 for it in times)


@contextmanager
def beside(busy):
    """So many processes that never rest."""
    processes = [subprocess.Popen([sys.executable, "-c", "while True: pass"]) for _ in range(busy)]
    try:
        yield
    finally:
        for it in processes:
            it.kill()
            it.wait()


def row_of(rate, half, most, greatest, peak):
    return f"{rate:.0f} | {half:.2f} | {most:.2f} | {greatest:.1f} | {peak / 1e6:.1f}"


def compared(name, busy, script, before):
    """Rows of one kind of call, behind these calls, of which the last tells how long an answer is."""
    for connections in CONNECTIONS:
        with Server(workers=2, servers=8 if connections <= 8 else connections) as server:
            client = Client(server.port)
            size = [len(client.post(body)[1]) for body in before][-1]
            client.close()
            with beside(busy):
                ours = by_wrk(script, server.port, connections)
        with Nginx(size) as nginx:
            with beside(busy):
                theirs = by_wrk(script, nginx.port, connections)
            their_peak = memory_of("VmHWM", nginx.process.pid)
        rows = f"{row_of(*ours, server.peak)} | {row_of(*theirs, their_peak)}"
        print(f"| {name} | {busy} | {connections} | {rows} | {ours[0] / theirs[0]:.2f} |", flush=True)


def wait_for(client, number, pause):
    """The document of a job that was sent, asked for again and again."""
    while True:
        text = returned(client.post(envelope("retrieve", osol=options(number)))[1])
        if "<status>finished" in text:
            return text
        time.sleep(pause)


def sent(client, osil, words=""):
    """The number of a job that was sent with this instance, and with these options behind its number."""
    number = int(returned(client.post(envelope("getJobID"))[1])[3:])
    osol = options(number).replace("</osol>", f"{words}</osol>")
    if returned(client.post(envelope("send", osil=osil, osol=osol))[1]) != "true":
        raise SystemExit(f"os-{number} wasn't taken")
    return number


def send_jobs(port, count, osil, failures):
    """Sends so many jobs on one connection, then waits for each, reads it and gives it up."""
    client = Client(port)
    numbers = [sent(client, osil) for _ in range(count)]
    for number in numbers:
        text = wait_for(client, number, PAUSE)
        if 'type="optimal"' not in text:
            failures.append(f"os-{number} is {text[:200]}")
        client.post(envelope("kill", osol=options(number)))
    client.close()


def jobs_a_second(workers, osil):
    """Jobs that many clients send at once, from the first send until all were read."""
    failures = []
    with Server(workers=workers, servers=CLIENTS, connections=CLIENTS) as server:
        threads = [threading.Thread(target=send_jobs, args=(server.port, JOBS // CLIENTS, osil, failures)) for _ in range(CLIENTS)]
        begun = time.monotonic()
        for thread in threads:
            thread.start()
        for thread in threads:
            thread.join()
        seconds = time.monotonic() - begun
    if failures:
        raise SystemExit("\n".join(failures))
    return JOBS / seconds


def alone(osil, words):
    """Processor seconds of `solve`, the least of some runs."""
    with tempfile.TemporaryDirectory() as folder:
        for name, text in (("osil", osil), ("osol", f"<osol>{words}</osol>")):
            with open(f"{folder}/{name}", "w", encoding="utf-8") as it:
                it.write(text)
        seconds = []
        for _ in range(SEARCHES):
            before = os.times()
            subprocess.run([PROGRAM, "solve", f"{folder}/osil", "--options", f"{folder}/osol"], stdout=subprocess.DEVNULL, check=True)
            after = os.times()
            seconds.append(after.children_user + after.children_system - before.children_user - before.children_system)
    return min(seconds)


def busiest(pid):
    """The processor seconds of the process's thread that has taken most."""
    ticks = []
    for task in os.listdir(f"/proc/{pid}/task"):
        with open(f"/proc/{pid}/task/{task}/stat", encoding="ascii") as it:
            ticks.append(sum(int(field) for field in it.read().rsplit(")", 1)[1].split()[11:13]))
    return max(ticks) / os.sysconf("SC_CLK_TCK")


def searched(osil, words, knocks, connections):
    """Processor seconds of the one worker's thread for one of some searches, and how many knocks a second so many connections got meanwhile."""
    with Server(workers=1, servers=connections + 1) as server:
        client, rates = Client(server.port), []
        crowd = threading.Thread(target=lambda: rates.append(by_wrk(knocks, server.port, connections)[0]))
        if connections:
            crowd.start()
        for _ in range(SEARCHES):
            wait_for(client, sent(client, osil, words), PAUSE)
        seconds = busiest(server.process.pid) / SEARCHES
        if connections:
            crowd.join()
        client.close()
    return seconds, rates[0] if rates else None


def main():
    names = "requests a second | 50% ms | 99% ms | greatest ms | MB"
    print(f"| calls | busy beside | connections | {names} | nginx: {names} | ours / nginx |")
    print("|---" * 14 + "|")
    knock, issue, kill = (envelope("knock"), envelope("getJobID"), envelope("kill", osol=options("%d")))
    knocks = KNOCK.replace("{knock}", knock.decode()) + TELL
    numbers = NUMBERS.replace("{issue}", issue.decode()).replace("{kill}", kill.decode()).replace("{behind}", str(KILLED_BEHIND)) + TELL
    for busy in (0, BUSY):
        compared(f"knock, {HELD} jobs", busy, knocks, [issue] * HELD + [knock])
        compared("getJobID, kill, kill", busy, numbers, [issue])
    program = programs.transport(20, 40)
    osil = programs.osil(program)
    print(f"\njobs, each `{program.name}`, of which `solve` takes {alone(osil, '') * 1e3:.0f} ms of processor time, sent by {CLIENTS} clients that")
    print(f"wait {PAUSE * 1e3:.0f} ms between their asks\n\n| workers | jobs a second | to 1 worker |\n|---|---|---|")
    one, two = (jobs_a_second(workers, osil) for workers in (1, 2))
    print(f"| 1 | {one:.1f} | |\n| 2 | {two:.1f} | {two / one:.2f} |")
    _, osil, _, _ = check.tree(NODES)
    words = '<optimization><solverOptions><solverOption name="nodeLimit" value="1000000"/></solverOptions></optimization>'
    print(f"\none search of {NODES:,} nodes\n\n| where | processor seconds | to `solve` | knocks a second meanwhile |\n|---|---|---|---|")
    least = alone(osil, words)
    print(f"| `solve` | {least:.3f} | | |")
    for where, connections in (("a server that nobody else asks", 0), ("a server that 8 connections ask", 8)):
        seconds, rate = searched(osil, words, knocks, connections)
        print(f"| {where} | {seconds:.3f} | {seconds / least:.2f} | {f'{rate:.0f}' if rate else ''} |", flush=True)


main()
