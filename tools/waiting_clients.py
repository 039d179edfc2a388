"""Clients that keep `serve` waiting, more clients than it has seats or files for, and clients that only come and go: how long each kind
holds a seat, and what the others get meanwhile. The rules are those of `docs/rules/serving.md`."""

import contextlib
import random
import re
import resource
import socket
import subprocess
import tempfile
import threading
import time

from serving import Client, Server, envelope, request, returned

PATIENCE = 2  # of the servers here, in seconds
SEATS = 64  # as many as a server has at most
OTHERS = 48  # connections beside whom the rest of the seats is held
SLACK = 3  # what a machine with other work may add to a time, in seconds
GIVEN_UP = 1  # how long the end of a link takes that was waited for in vain
LUA = 'wrk.method = "POST"\nwrk.body = "{body}"\nwrk.headers["Content-Type"] = "text/xml; charset=utf-8"\n'


def connect(port):
    return socket.create_connection(("127.0.0.1", port))


def until_the_end(link, most, each=lambda: None):
    """How long the link lasts until its server ends it, while something is done each second; infinite where it lasts longer than `most`."""
    begun = time.monotonic()
    link.settimeout(1)
    while time.monotonic() < begun + most:
        try:
            each()
            if not link.recv(65_536):
                return time.monotonic() - begun
        except TimeoutError:
            pass
        except ConnectionError:
            return time.monotonic() - begun
    return float("inf")


def silent(port, most):
    """Says nothing."""
    with connect(port) as link:
        return until_the_end(link, most)


def head_alone(port, most):
    """Sends a head, and no body."""
    with connect(port) as link:
        link.sendall(request(b"x" * 1_000)[:-1_000])
        return until_the_end(link, most)


def byte_a_second(port, most):
    """Sends a request that never ends, a byte a second."""
    with connect(port) as link:
        link.sendall(request(b"x" * 1_000_000)[:-1_000_000])
        return until_the_end(link, most, lambda: link.sendall(b"x"))


def never_reads(port, most):
    """Asks again and again, and reads no answer."""
    begun = time.monotonic()
    with socket.socket() as link:
        link.setsockopt(socket.SOL_SOCKET, socket.SO_RCVBUF, 4_096)
        link.settimeout(most)
        link.connect(("127.0.0.1", port))
        text = request(envelope("knock")) * 100
        try:
            while time.monotonic() < begun + most:
                link.sendall(text)
        except ConnectionError:
            return time.monotonic() - begun
        except TimeoutError:
            pass
        return float("inf")


# Each kind, and for how long it holds a seat at most, where others wait for one. What isn't read is known to be so only once the
# system's buffers are full.
KINDS = {
    silent: 1 + GIVEN_UP,
    head_alone: PATIENCE + GIVEN_UP,
    byte_a_second: 10 * PATIENCE + 1,
    never_reads: 1 + PATIENCE + GIVEN_UP,
}


def together(calls):
    """What these calls answer, made at once."""
    answers = [None] * len(calls)

    def make(place, call):
        answers[place] = call()

    threads = [threading.Thread(target=make, args=pair) for pair in enumerate(calls)]
    for thread in threads:
        thread.start()
    for thread in threads:
        thread.join()
    return answers


def asks_once(port):
    """How long a client waits that connects and asks for a number."""
    begun = time.monotonic()
    client = Client(port)
    status, _ = client.post(envelope("getJobID"))
    client.close()
    return time.monotonic() - begun if status == 200 else float("inf")


def seats_come_back():
    """Eight clients of a kind on a server with eight seats: whether each link is ended in time, and a ninth client gets its answer then."""
    good = True
    for kind, most in KINDS.items():
        with Server(workers=1, servers=8, patience=PATIENCE) as server:
            port = server.port

            def ninth():
                time.sleep(0.5)
                return asks_once(port)

            *held, waited = together([lambda: kind(port, 60)] * 8 + [ninth])
        print(f"eight clients, {kind.__name__}: {min(held):.1f} to {max(held):.1f} s on their seats; a ninth waits {waited:.1f} s")
        # One that has seats enough is waited for as long as the patience says.
        good = good and max(held) < max(most, PATIENCE + GIVEN_UP) + SLACK and waited < most + SLACK
    return good


class Kept:
    """A client that keeps its connection, and makes another one where its server has ended it."""

    def __init__(self, port):
        self.port, self.client, self.again = port, None, 0

    def number(self):
        """A number, and whether it took a second try. A request whose connection ends before any answer wasn't read."""
        for _ in range(10):
            try:
                self.client = self.client or Client(self.port)
                status, answer = self.client.post(envelope("getJobID"))
                if status == 200:
                    return int(returned(answer)[3:])
                raise SystemExit(f"a number was asked for, and {status} answered")
            except (ConnectionError, ValueError, IndexError):  # the end, in place of a status
                self.again += 1
                self.client.close()
                self.client = None
        raise SystemExit("ten connections ended before an answer")


def more_clients_than_seats(clients=200, asks=4):
    """Clients over kept connections, more than there are seats: whether all get all their answers, each number once and none lost."""
    with Server(workers=2, servers=SEATS) as server:
        kept = [Kept(server.port) for _ in range(clients)]

        def work(client, seed):
            rng = random.Random(seed)
            numbers = []
            for _ in range(asks):
                numbers.append(client.number())
                time.sleep(rng.uniform(0, 2))
            return numbers

        begun = time.monotonic()
        numbers = sum(together([lambda c=c, s=s: work(c, s) for s, c in enumerate(kept)]), [])
        spent = time.monotonic() - begun
        again = sum(client.again for client in kept)
    print(f"{clients} clients on {SEATS} seats: {len(numbers)} answers in {spent:.0f} s, {again} of them after another connection")
    return sorted(numbers) == list(range(1, clients * asks + 1)) and again > 0


def is_answered(client):
    try:
        return client.post(envelope("getJobID"))[0] == 200
    except ConnectionError:
        return False


def idle_links_stay_while_seats_are_free(others=50):
    """A client that is idle while others come to a server that accepts slowly, so that connections wait for seconds though seats are free: whether
    all get their answers on the links that they have."""
    slowly = ["strace", "-f", "-qq", "-o", "/dev/null", "-e", "trace=accept,accept4", "-e", "inject=accept,accept4:delay_exit=60000"]
    with Server(workers=1, servers=SEATS, connections=others + 1, behind=slowly) as server:
        first = Client(server.port)
        first.post(envelope("getJobID"))
        clients = [first] + [Client(server.port) for _ in range(others)]
        time.sleep(2.4)  # while the last of them still wait to be accepted
        answered = sum(is_answered(client) for client in clients)
        for client in clients:
            client.close()
    print(f"one that is idle beside {others} that are accepted slowly, with seats free: {answered} links of {others + 1} stay")
    return answered == others + 1


def goes_on_with_few_descriptors():
    """A server that may open 40 files, with thirty silent clients: whether those who ask get their answers, since silent links end for them."""
    with Server(workers=1, servers=SEATS) as server:
        resource.prlimit(server.process.pid, resource.RLIMIT_NOFILE, (40, 40))
        idle = [connect(server.port) for _ in range(30)]
        waited = max(asks_once(server.port) for _ in range(2))
        kept = [Kept(server.port) for _ in range(60)]
        numbers = together([client.number for client in kept])
        for link in idle:
            link.close()
    print(f"of 40 files and beside 30 silent clients: an answer after {waited:.1f} s, and 60 more clients get {len(set(numbers))} numbers")
    return waited < 1 + GIVEN_UP + SLACK and sorted(numbers) == list(range(3, 63))


def wrk(port, seconds):
    """Answers a second of the others, who knock."""
    with tempfile.NamedTemporaryFile("w", suffix=".lua") as lua:
        lua.write(LUA.replace("{body}", envelope("knock").decode()))
        lua.flush()
        words = ["wrk", "-t", "2", "-c", str(OTHERS), "-d", f"{seconds}s", "-s", lua.name, f"http://127.0.0.1:{port}/os"]
        out = subprocess.run(words, capture_output=True, text=True, check=True).stdout
    wrong = re.findall(r"Non-2xx.*|Socket errors.*", out)
    if wrong:
        print(" ".join(wrong))
    return 0 if wrong else float(re.search(r"Requests/sec:\s+([\d.]+)", out).group(1))


def come_and_go(port, count):
    """So many clients, one after another, that connect and go."""
    for _ in range(count):
        connect(port).close()


def others_keep_their_rates(seconds=12):
    """The others' rate alone, and beside all kinds on the seats that are left and 1,000 that come and go; and the program's memory."""
    with Server(workers=2, servers=SEATS, patience=PATIENCE) as server:
        port = server.port
        wrk(port, 2)
        before, alone = server.memory(), wrk(port, seconds)
        calls = [lambda kind=kind: kind(port, 60) for kind in KINDS for _ in range(3)]
        beside, *_ = together([lambda: wrk(port, seconds), lambda: come_and_go(port, 1_000), *calls])
        asks_once(port)
        again, after = wrk(port, seconds), server.memory()
    print(
        f"{OTHERS} connections: {alone:.0f} answers a second alone, {beside:.0f} beside clients that keep it waiting, {again:.0f} alone again;"
        f" memory {before / 2**20:.1f} MiB before, {after / 2**20:.1f} after"
    )
    return beside > 0.6 * min(alone, again) and after < before + 2**22


def main():
    """Whether all of it holds."""
    return all([seats_come_back(), more_clients_than_seats(), idle_links_stay_while_seats_are_free(), goes_on_with_few_descriptors(), others_keep_their_rates()])
