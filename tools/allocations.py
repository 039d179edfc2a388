"""Refuses each allocation in turn, of sessions and of a server whose job is killed, and looks at what is answered then: tools/allocations.sh.

Of a session the answers are those of the session in which nothing is refused, up to a request that gets 503 in place of its answer, with the
status 5; or all of them, of which a retrieve may show a job that claims nothing but its best point, for want of memory. Of the server each answer is right for the
job, or 503 and the connection's end.
"""

import os
import re
import subprocess
import sys
import time

import serving

LACKING = b"HTTP/1.1 503 Service Unavailable\r\nConnection: close\r\nContent-Length: 0\r\n\r\n"
LEAST = '<osil><instanceData><variables><var/></variables><objectives><obj><coef idx="0">1</coef></obj></objectives></instanceData></osil>'
# 2 x0 - 2 x1 = 1 in whole numbers: cases without end.
NO_END = (
    '<osil><instanceData><variables><var type="I" mult="2"/></variables><constraints><con lb="1" ub="1"/></constraints><linearConstraintCoefficients>'
    '<start><el mult="3" incr="1">0</el></start><rowIdx><el mult="2">0</el></rowIdx><value><el>2</el><el>-2</el></value></linearConstraintCoefficients></instanceData></osil>'
)
LONG = '<osol><general><jobID>os-1</jobID></general><optimization><solverOptions><solverOption name="nodeLimit" value="1000000"/></solverOptions></optimization></osol>'
SEND = serving.envelope("send", osil=LEAST, osol=serving.options(1))
SESSIONS = {
    "a number": [serving.envelope("getJobID")],
    "a job that is sent too early, then, and again": [SEND, serving.envelope("getJobID"), SEND, SEND],
    "a job that is sent, listed and read": [serving.envelope("getJobID"), SEND, serving.envelope("knock"), serving.envelope("retrieve", osol=serving.options(1))],
}
WAITS = 400  # knocks at most until a job is seen to run, or to be over


class Other(Exception):
    """An answer that is none of those that may come."""


def ran(asked, at, shim):
    """The status, the output and whether an allocation was refused, of a session in which the one with this number is."""
    variables = os.environ | {"REFUSE_AT": str(at), "LD_PRELOAD": shim}
    done = subprocess.run([serving.PROGRAM, "session"], input=asked, capture_output=True, env=variables, check=False, timeout=60)
    return done.returncode, done.stdout, bool(done.stderr)


def claims_no_end(answer):
    """Whether a retrieve shows a job that is over without a claim, or with its best point alone, the cause being want of memory."""
    statuses = re.findall(rb"&lt;status type=\"([a-zA-Z]+)\"", answer)
    point = b'os_cert.point"&gt;&lt;item&gt;0&lt;/item&gt;&lt;/otherSolutionResult' in answer
    return statuses in ([b"unsure"], [b"bestSoFar"][: int(point)]) and b'os_cert.cause"&gt;&lt;item&gt;memory&lt;/item&gt;' in answer


def answers_of(bodies):
    """What is written behind so many requests, from none to all, where nothing is refused."""
    asked = [b"".join(serving.request(body) for body in bodies[:count]) for count in range(len(bodies) + 1)]
    return asked[-1], [subprocess.run([serving.PROGRAM, "session"], input=it, capture_output=True, check=True, timeout=60).stdout for it in asked]


def is_right(status, told, said):
    """Whether a session may answer so where memory is wanting."""
    if status == 5:
        return told == b"" or told in [before + LACKING for before in said[:-1]]
    last = told[len(said[-2]) :]
    return status == 0 and (told == said[-1] or (told.startswith(said[-2]) and claims_no_end(last)))


def try_session(name, bodies, shim):
    """How many allocations were refused, and how many of these changed an answer that may not change."""
    asked, said = answers_of(bodies)
    at = wrong = 0
    while True:
        at += 1
        status, told, refused = ran(asked, at, shim)
        if not refused:
            break
        if not is_right(status, told, said):
            wrong += 1
            print(f"{name}, allocation {at}: status {status}, {len(told)} bytes")
    return at - 1, wrong + (told != said[-1])


def posted(client, call, **parts):
    """What a call returns; none where it gets 503."""
    status, body = client.post(serving.envelope(call, **parts))
    if status == 503:
        return None
    if status != 200:
        raise Other(f"{call} got {status}")
    return serving.returned(body)


def state_of(told):
    found = re.findall(r"<state>(\w+)</state>", told)
    return found[0] if found else "none"


def waited(client, wanted):
    """The state that a knock tells at last; none where one gets 503."""
    for _ in range(WAITS):
        told = posted(client, "knock")
        if told is None:
            return None
        if state_of(told) in wanted:
            return state_of(told)
        time.sleep(0.005)
    raise Other(f"the job is never {' or '.join(wanted)}")


def kill_a_job(client):
    """Has a job run, and kills and reads it. It may be over before: for want of memory, or because no worker could be started, so that it was run
    behind an answer up to its limit."""
    for call, parts, wanted in (("getJobID", {}, "os-1"), ("send", {"osil": NO_END, "osol": LONG}, "true")):
        told = posted(client, call, **parts)
        if told is None:
            return
        if told != wanted:
            raise Other(f"{call} returned {told!r}")
    state = waited(client, ("running", "finished"))
    causes = ["memory", "nodeLimit 1000000"]
    if state == "running":
        told = posted(client, "kill", osol=serving.options(1))
        if told is None or waited(client, ("finished", "none")) != "finished":
            return
        causes = ["memory", "killed"] if state_of(told) == "running" else causes
    told = posted(client, "retrieve", osol=serving.options(1)) if state else None
    if told is not None and not any(f'os_cert.cause"><item>{cause}</item>' in told for cause in causes):
        raise Other(f"the job ended otherwise: {told[-300:]!r}")


def talk(port):
    """A client's whole talk. Where an answer, or room to serve, found no memory, the connection may end, or not come about."""
    try:
        client = serving.Client(port)
        try:
            kill_a_job(client)
        finally:
            client.close()
    except ConnectionError:
        return None
    except Other as error:
        return str(error)
    return None


def serve_once(at, shim, errors):
    """A server that refuses this allocation, and a client's whole talk with it. The answer is why it was wrong, if it was."""
    words = [serving.PROGRAM, "serve", "127.0.0.1", str(serving.free_port()), "--workers", "1", "--servers", "1", "--connections", "1"]
    server = subprocess.Popen(words, stdout=subprocess.PIPE, stderr=errors, env=os.environ | {"REFUSE_AT": str(at), "LD_PRELOAD": shim})
    try:
        if server.stdout.readline() != b"listening\n":
            return None if server.wait(20) in (5, 6) else f"it ended with {server.returncode}"  # 6: the system found none to listen
        why = talk(int(words[3]))
        return why or (None if server.wait(60) in (0, 5) else f"it ended with {server.returncode}")
    except subprocess.TimeoutExpired:
        return "it didn't end"
    finally:
        server.kill()
        server.wait()
        server.stdout.close()


def try_server(shim, room):
    """As for a session, of a server whose job is killed while it runs."""
    at = wrong = 0
    while True:
        at += 1
        with open(f"{room}/told", "w+b") as errors:
            why = serve_once(at, shim, errors)
            refused = errors.tell() or os.fstat(errors.fileno()).st_size
        if not refused and why is None:
            return at - 1, wrong
        if why:
            wrong += 1
            print(f"a job that is killed, allocation {at}: {why}")
        if not refused:
            return at - 1, wrong


def main():
    shim, room = sys.argv[1:]
    tried = failed = 0
    for name, bodies in SESSIONS.items():
        refused, wrong = try_session(name, bodies, shim)
        print(f"{name}: {refused} allocations refused in turn")
        tried, failed = tried + refused, failed + wrong
    refused, wrong = try_server(shim, room)
    print(f"a job that is killed while it runs: {refused} allocations refused in turn")
    tried, failed = tried + refused, failed + wrong
    print(f"{tried - failed} passed, {failed} failed")
    return int(failed > 0)


if __name__ == "__main__":
    sys.exit(main())
