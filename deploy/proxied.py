"""Starts servers and the proxy before them, as they are deployed: by `deploy/serve`, `deploy/haproxy.cfg` and a list of users."""

import base64
import csv
import io
import os
import signal
import socket
import ssl
import subprocess
import tempfile
import time

from serving import Client, free_port, request

NAMES = ("one", "two", "three")
USER, PASSWORD = "ann", "correct horse"
NUMBERS = 10**15  # a server's numbers are K times this, and on
# So that other work on the machine makes no server look down, and no client idle. A server that was killed refuses its check at once.
PATIENT = {"GUBNATRIS_CHECK": "60s", "GUBNATRIS_KEEP_ALIVE": "10m"}
PATIENCE = 120  # seconds until the proxy has to know what became of a server


def told_by(*words, **more):
    return subprocess.run(words, capture_output=True, text=True, check=True, **more).stdout


class Machines:
    """So many servers, 1 to 3, and the proxy, on free ports of loopback. Who comes in is one user."""

    def __init__(self, count=len(NAMES)):
        self.count, self.servers, self.configuration = count, {}, "deploy/haproxy.cfg"

    def __enter__(self):
        self.folder = tempfile.TemporaryDirectory()
        where = self.folder.name
        self.ports = {name: free_port() for name in NAMES}
        for name in NAMES[: self.count]:
            self.start(name)
        self.port, self.certificate, self.admin_socket = free_port(), f"{where}/certificate.pem", f"{where}/admin.sock"
        told_by(
            "openssl", "req", "-x509", "-newkey", "ec", "-pkeyopt", "ec_paramgen_curve:prime256v1", "-nodes", "-days", "1", "-subj", "/CN=localhost",
            "-addext", "subjectAltName=DNS:localhost,IP:127.0.0.1", "-keyout", f"{where}/key.pem", "-out", self.certificate,
        )
        with open(f"{where}/both.pem", "w", encoding="utf-8") as both:
            for name in (self.certificate, f"{where}/key.pem"):
                with open(name, encoding="utf-8") as it:
                    both.write(it.read())
        with open(f"{where}/users.cfg", "w", encoding="utf-8") as users:
            written = told_by("openssl", "passwd", "-5", "-salt", f"rounds=1000${os.urandom(6).hex()}", PASSWORD)
            users.write(f"userlist planners\n    user {USER} password {written.strip()}\n")
        self.start_proxy(where)
        self.wait_for({name: "UP" if name in self.servers else "DOWN" for name in NAMES})
        return self

    def start(self, name):
        """Starts a server, and keeps the number with which its numbers begin."""
        process = subprocess.Popen(["deploy/serve", str(NAMES.index(name) + 1), str(self.ports[name])], stdout=subprocess.PIPE)
        self.servers[name] = process
        line = process.stdout.readline()
        if line != b"listening\n":
            raise SystemExit(f"server {name} wrote {line!r} and ended with {process.wait()}")

    def start_proxy(self, where):
        variables = {f"GUBNATRIS_{place + 1}": f"127.0.0.1:{self.ports[name]}" for place, name in enumerate(NAMES)}
        variables |= {"GUBNATRIS_LISTEN": f"127.0.0.1:{self.port}", "GUBNATRIS_CERTIFICATE": f"{where}/both.pem", "GUBNATRIS_ADMIN": self.admin_socket}
        variables |= {"GUBNATRIS_PAGE": "deploy/page", **PATIENT}
        words = ["haproxy", "-db", "-q", "-f", self.configuration, "-f", f"{where}/users.cfg"]
        with open(f"{where}/log", "wb") as self.log:
            self.proxy = subprocess.Popen(words, env=os.environ | variables, stderr=self.log)

    def kill(self, name):
        """Kills a server's process, and waits for that and nothing else."""
        process = self.servers.pop(name)
        process.send_signal(signal.SIGKILL)
        process.wait()
        process.stdout.close()

    def admin(self, command):
        """What the proxy answers to a command at its socket for who administers it."""
        with socket.socket(socket.AF_UNIX) as link:
            link.connect(self.admin_socket)
            link.sendall(command.encode() + b"\n")
            return link.makefile(encoding="utf-8").read()

    def states(self):
        """What the proxy thinks of each server that new jobs may go to."""
        rows = csv.DictReader(io.StringIO(self.admin("show stat").lstrip("# ")))
        return {row["svname"]: row["status"].split()[0] for row in rows if row["pxname"] == "any" and row["svname"] != "BACKEND"}

    def wait_for(self, wanted):
        """Waits until the proxy thinks so of the servers."""
        limit = time.monotonic() + PATIENCE
        while time.monotonic() < limit:
            try:
                states = self.states()
                if all(states[name] == state for name, state in wanted.items()):
                    return
            except OSError:
                if self.proxy.poll() is not None:
                    with open(self.log.name, encoding="utf-8") as log:
                        raise SystemExit(f"the proxy ended with {self.proxy.returncode}: {log.read()}") from None
            time.sleep(0.1)
        raise SystemExit(f"the proxy thinks {states}, and not {wanted}")

    def __exit__(self, *_):
        for process in [*self.servers.values(), self.proxy]:
            process.kill()
            process.wait()
        for process in self.servers.values():
            process.stdout.close()
        self.folder.cleanup()


class ProxyClient(Client):
    """A connection that stays, over TLS, as the user. It is made anew where it has ended. `server`: the name of who answered last."""

    def __init__(self, machines, password=PASSWORD):
        self.machines, self.server = machines, None
        token = base64.b64encode(f"{USER}:{password}".encode())
        self.field = b"\r\nAuthorization: Basic " + token + b"\r\n\r\n"
        self.context = ssl.create_default_context(cafile=machines.certificate)
        self.connect()

    def connect(self):
        super().__init__(self.machines.port)
        self.file.close()
        self.link = self.context.wrap_socket(self.link, server_hostname="localhost")
        self.file = self.link.makefile("rb")

    def post(self, body):
        self.link.sendall(request(body).replace(b"\r\n\r\n", self.field, 1))
        return self.answer()

    def answer(self):
        """The status and the body of the answer; 0 where the connection ended."""
        status, fields = self.file.readline().split(b" ", 2)[1:2], {}
        for line in iter(self.file.readline, b"\r\n"):
            if not line:
                break
            name, _, value = line.partition(b":")
            fields[name.lower()] = value.strip()
        body = self.file.read(int(fields.get(b"content-length", 0)))
        self.server = fields.get(b"x-gubnatris-server", b"").decode()
        if not status or fields.get(b"connection", b"").lower() == b"close":
            self.close()
            self.connect()
        return int(status[0]) if status else 0, body
