"""Times long connections: `knock` on a table of 100 jobs, `getJobID`, `send` of a small instance with `retrieve` of its result, and
one large request. Each answer's status is looked at, so a figure is that of answered calls.
"""

import os
import subprocess
import sys
import tempfile

from measuring import peak_of

PROGRAM = os.path.abspath("crates/os_main/out/os_main")
RUNS = 5
OSIL = "&lt;osil&gt;&lt;instanceData&gt;&lt;variables&gt;&lt;var/&gt;&lt;/variables&gt;&lt;/instanceData&gt;&lt;/osil&gt;"


def request(call, parts=""):
    body = f"<Envelope><Body><{call}>{parts}</{call}></Body></Envelope>"
    return f"POST /os HTTP/1.1\r\nHost: a\r\nContent-Length: {len(body)}\r\n\r\n{body}".encode()


def options(number):
    return f"<osol>&lt;osol&gt;&lt;general&gt;&lt;jobID&gt;os-{number}&lt;/jobID&gt;&lt;/general&gt;&lt;/osol&gt;</osol>"


def knocks(count):
    return request("getJobID") * 100 + request("knock") * count


def numbers(count):
    return request("getJobID") * count


def jobs(count):
    """Each job is issued, sent, retrieved, killed (it was finished, so its record is given up)."""
    return b"".join(
        request("getJobID") + request("send", f"<osil>{OSIL}</osil>" + options(n)) + request("retrieve", options(n)) + request("kill", options(n))
        for n in range(1, count + 1)
    )


def large(size):
    """One call whose instance is mostly white space, of so many bytes."""
    return request("solve", f"<osil>{OSIL}{' ' * size}</osil>")


def measured(source, answers):
    """The least seconds of some runs and the peak memory, where all requests were answered 200."""
    best = None
    for _ in range(RUNS):
        with open(source, "rb") as given, tempfile.TemporaryFile() as out:
            process = subprocess.Popen([PROGRAM, "session"], stdin=given, stdout=out)
            _, status, usage = os.wait4(process.pid, 0)
            process.returncode = status
            out.seek(0)
            answered = sum(line.count(b"HTTP/1.1 200 OK") for line in out)
        if status != 0 or answered != answers:
            sys.exit(f"status {status}, {answered} of {answers} requests answered")
        seconds = usage.ru_utime + usage.ru_stime
        best = seconds if best is None else min(best, seconds)
    return best, peak_of([PROGRAM, "session"], source)


def main():
    print("| calls | requests | seconds | requests a second | growth | peak MB |\n|---|---|---|---|---|---|")
    with tempfile.TemporaryDirectory() as folder:
        source = os.path.join(folder, "source")
        for name, make, sizes, more in (("knock, 100 jobs", knocks, (1000, 10000), 100), ("getJobID", numbers, (1000, 10000), 0)):
            before = None
            for size in sizes:
                with open(source, "wb") as it:
                    it.write(make(size))
                seconds, peak = measured(source, size + more)
                growth = f"{seconds / before:.1f}" if before else ""
                print(f"| {name} | {size + more} | {seconds:.3f} | {(size + more) / seconds:.0f} | {growth} | {peak / 1e6:.1f} |", flush=True)
                before = seconds
        before = None
        for size in (100, 1000):
            with open(source, "wb") as it:
                it.write(jobs(size))
            seconds, peak = measured(source, 4 * size)
            growth = f"{seconds / before:.1f}" if before else ""
            print(f"| getJobID, send, retrieve, kill | {4 * size} | {seconds:.3f} | {4 * size / seconds:.0f} | {growth} | {peak / 1e6:.1f} |", flush=True)
            before = seconds
        for size in (1_000_000, 4_000_000):
            text = large(size)
            with open(source, "wb") as it:
                it.write(text)
            seconds, peak = measured(source, 1)
            print(f"| solve, {len(text)} bytes | 1 | {seconds:.3f} | {len(text) / seconds / 1e6:.0f} MB a second | | {peak / 1e6:.1f} |", flush=True)


main()
