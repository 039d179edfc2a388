"""Starts `serve`, of the program that the environment's OS_PROGRAM names or of the repository's own, and speaks to it over connections
that stay."""

import html
import os
import re
import signal
import socket
import subprocess

PROGRAM = os.path.abspath(os.environ.get("OS_PROGRAM", "crates/os_main/out/os_main"))


def free_port():
    with socket.create_server(("127.0.0.1", 0)) as it:
        return it.getsockname()[1]


class Server:
    """A run of `serve` on a free port of loopback, behind the words of another command, if there are any. Where it was to end by itself, after so
    many connections, its status is looked at."""

    def __init__(self, workers, servers, connections=None, patience=None, behind=(), journal=None, before=None):
        self.behind = behind
        self.words = ["--workers", str(workers), "--servers", str(servers)]
        self.words += ["--connections", str(connections)] if connections else []
        self.words += ["--patience", str(patience)] if patience else []
        self.words += ["--journal", journal] if journal else []
        self.before = before
        self.connections, self.peak, self.jobs = connections, 0, None

    def __enter__(self):
        self.port = free_port()
        self.process = subprocess.Popen([*self.behind, PROGRAM, "serve", "127.0.0.1", str(self.port), *self.words], stdout=subprocess.PIPE, preexec_fn=self.before)
        line = self.process.stdout.readline()
        if line != b"listening\n":
            raise SystemExit(f"serve wrote {line!r} and ended with {self.process.wait()}")
        return self

    def memory(self):
        """How many bytes of memory the program has now."""
        with open(f"/proc/{self.process.pid}/status", encoding="ascii") as status:
            return int(re.search(r"VmRSS:\s+(\d+) kB", status.read()).group(1)) * 1024

    def __exit__(self, kind, *_):
        if kind or not self.connections:
            os.kill(self.process.pid, signal.SIGKILL)  # also one that was killed, and isn't waited for yet
        told = self.process.stdout.read()
        _, status, usage = os.wait4(self.process.pid, 0)
        self.process.returncode, self.peak = status, usage.ru_maxrss * 1024
        if self.connections and not kind:
            found = re.fullmatch(rb"jobs (\d+)\n", told)
            if status != 0 or not found:
                raise SystemExit(f"serve wrote {told!r} and ended with {status}")
            self.jobs = int(found.group(1))


def envelope(call, **parts):
    inner = "".join(f"<{name}>{html.escape(text)}</{name}>" for name, text in parts.items())
    return f"<Envelope><Body><{call}>{inner}</{call}></Body></Envelope>".encode()


def options(number):
    return f"<osol><general><jobID>os-{number}</jobID></general></osol>"


def request(body):
    return b"POST /os HTTP/1.1\r\nHost: os\r\nContent-Type: text/xml; charset=utf-8\r\nContent-Length: %d\r\n\r\n%s" % (len(body), body)


class Client:
    """A connection that stays."""

    def __init__(self, port):
        self.link = socket.create_connection(("127.0.0.1", port))
        self.link.setsockopt(socket.IPPROTO_TCP, socket.TCP_NODELAY, 1)
        self.file = self.link.makefile("rb")

    def post(self, body):
        """The status and the body of the answer."""
        self.link.sendall(request(body))
        return self.answer()

    def answer(self):
        first, length = self.file.readline(), 0
        if not first:
            raise ConnectionError("the connection ended before an answer")
        status = first.split(b" ", 2)[1]
        for line in iter(self.file.readline, b"\r\n"):
            if not line:
                raise ConnectionError("the connection ended inside a head")
            if line.lower().startswith(b"content-length:"):
                length = int(line[15:])
        return int(status), self.file.read(length)

    def close(self):
        self.file.close()
        self.link.close()


def returned(body):
    """The text that a reply returns."""
    found = re.search(rb"<\w+Return>(.*)</\w+Return>", body, re.S)
    return html.unescape(found.group(1).decode())
