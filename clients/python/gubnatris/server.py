"""A server, and the six calls to it over HTTP."""

from __future__ import annotations

import base64
import contextlib
import re
import socket
import time
import urllib.parse
from typing import TYPE_CHECKING, Any, Callable, NamedTuple, Optional, Union

from .errors import Error, Fault, NoReply, NotFinished, NotReached, NotSent, Status, TimedOut
from .limits import MOST_DOCUMENT
from .options import Gap, find_not_offered, gap_text, options_text
from .results import Result, document_of, read_of_job, refusal, state_of
from .sources import Given, Source, source_of
from .starts import Start, first_values
from .trees import below, local, only, parsed, text_in
from .writing import NO_XML, escaped

if TYPE_CHECKING:
    import ssl

LONGEST_ANSWER = 25_165_824
LONGEST_HEAD = 16_384
SHORTEST_PAUSE, LONGEST_PAUSE = 0.002, 1.0  # seconds between two asks of `wait`
LATE = 0.1  # of the time that a job has taken, how much later `wait` may see it
SEES_WITHIN = 1.0  # seconds in which a search sees that its time is over

_HEAD = re.compile(rb"(?:\r?\n)*HTTP/1\.\d (?P<status>\d{3})(?: (?P<reason>[^\r\n]*))?\r?\n(?P<fields>(?:[^\r\n:]+:[^\r\n]*\r?\n)*)\r?\n")
_ENDED_HEAD = re.compile(rb"[^\r\n]\r?\n\r?\n")


class Jobs(NamedTuple):
    """What a server says of its jobs: whether one runs, how many wait or run, how many numbers were given, and each job's state."""

    busy: bool
    current: int
    total: int
    states: dict[str, str]


class Server:
    """A server, or a proxy before several. Each call has a connection of its own, so that none is held between two calls.

    `url`: `http://HOST:PORT`, or `https://..` of a proxy. `seconds`: how long a call may take, from connecting to the last byte of
    its answer. `user`, `password`: for a proxy that asks for them. `context`: for `https`, whom to trust, where that aren't the
    authorities of the system.
    """

    def __init__(
        self,
        url: str,
        *,
        seconds: float = 60.0,
        user: Optional[str] = None,
        password: str = "",
        context: Optional[ssl.SSLContext] = None,
    ):
        parts = urllib.parse.urlsplit(url)
        if parts.scheme not in ("http", "https") or not parts.hostname:
            raise ValueError(f"not the URL of a server: {url!r}")
        self.host = parts.hostname
        self.port = parts.port or {"http": 80, "https": 443}[parts.scheme]
        self.seconds = seconds
        self._context = (context or _system_context()) if parts.scheme == "https" else None
        self._fields = [f"POST {parts.path or '/os'} HTTP/1.1", f"Host: {parts.netloc.rpartition('@')[2]}"]
        if user is not None:
            token = base64.b64encode(f"{user}:{password}".encode()).decode()
            self._fields.append(f"Authorization: Basic {token}")
        self._fields += ['SOAPAction: ""', "Content-Type: text/xml; charset=utf-8", "Connection: close"]

    def solve(
        self,
        instance: Given,
        *,
        node_limit: Optional[int] = None,
        turn_limit: Optional[int] = None,
        rounds: Optional[int] = None,
        names: bool = False,
        form: Optional[str] = None,
        seconds: Optional[float] = None,
        result: Union[str, Result, None] = None,
        certify: bool = False,
        bound: bool = False,
        gap: Gap = None,
        fast: bool = False,
        start: Start = None,
    ) -> Result:
        """Solves an instance, and leaves nothing at the server.

        `node_limit`, `turn_limit`: how many cases a search may begin, and how many turns of the simplex method it may make. `rounds`: how
        many rounding cuts it may add. `names`: whether the result document has the names of variables and rows. `form`: "rows" has the
        certificate told with multipliers of rows alone, where the checker accepts it so, and "whole" as without it. `seconds`: after so
        many the search ends, and the result is what it has found by then. A job that hasn't begun when they are over is given up.
        `result`: a result document, of whatever solver, or what was read of one: where the server's checker accepts its claim of this
        instance, that is the answer, and nothing is searched; else `Result.message` says why not. `certify`: has `tools/certify` make one
        first, for so many seconds, where none is given; it needs a checkout.
        `start`: the point that it begins with, a result, numbers in the order of the variables, or some by a variable, its number or name, and 0
        for the others; where that is no point of the instance `Result.message` says so. `bound`: whether a search that ends early tells
        `Result.bound`. `gap`: a number, or a text as "2%", so many hundredths of the objective; the search ends where its best point is
        shown to be no further from the best one, with the cause `gap`. `fast` is not offered yet: `NotOffered`. Raises `Refused` where the
        instance or a limit is, and `TimedOut` where the search hadn't begun by then. (The call `solve` of the server would keep the job under a number that nobody is told.)
        """
        find_not_offered(fast)
        source = source_of(instance)
        document = document_of(result)
        if certify and document is None:
            document = _certified(source.text, seconds)
        limits = (node_limit, turn_limit, rounds, names, form, bound, gap_text(gap, source), seconds, first_values(start, instance))
        job = self._submit(source, limits, document)
        try:
            return self._within(job, seconds, source)
        finally:
            self._give_up(job)

    def _within(self, job: str, seconds: Optional[float], source: Source) -> Result:
        """The result of a job that keeps its time. One that goes on for longer, since it began late or the server knows of no time, is asked to
        stop."""
        try:
            return self._wait(job, seconds, source)
        except TimedOut:
            if self.state(job) != "waiting":
                with contextlib.suppress(TimedOut):
                    return self._wait(job, SEES_WITHIN, source)
            if self.kill(job) != "running":
                raise
        return self._wait(job, self.seconds, source)

    def submit(
        self,
        instance: Given,
        *,
        node_limit: Optional[int] = None,
        turn_limit: Optional[int] = None,
        rounds: Optional[int] = None,
        names: bool = False,
        form: Optional[str] = None,
        seconds: Optional[float] = None,
        result: Union[str, Result, None] = None,
        bound: bool = False,
        gap: Gap = None,
        start: Start = None,
        named: Optional[Callable[[str], object]] = None,
    ) -> str:
        """Hands an instance over, to be solved behind this call; the job's name.

        `named` is called with that name before the instance is sent: whoever writes it down there finds the job again, whatever ends him.
        Raises `Refused` where a limit is; where the instance is, its result tells that. A server holds 10,000 jobs: give up, by `kill`,
        what was read.
        """
        source = source_of(instance)
        limits = (node_limit, turn_limit, rounds, names, form, bound, gap_text(gap, source), seconds, first_values(start, instance))
        return self._submit(source, limits, document_of(result), named)

    def _submit(
        self,
        source: Source,
        limits: tuple[Any, ...],
        result: Optional[str],
        named: Optional[Callable[[str], object]] = None,
    ) -> str:
        job = self._call("getJobID", {"osol": options_text(None, *limits)})
        try:
            if named:
                named(job)
            taken = self._call("send", {"osol": options_text(job, *limits, result=result), "osil": source.text})
        except BaseException:
            self._give_up(job)
            raise
        if taken != "true":
            raise NotFinished(job, self.state(job))
        return job

    def result(self, job: str) -> Result:
        """The result of a finished job; it can be read again. Raises `NotFinished` where there is none (yet), and `Refused` where the
        instance is."""
        return self._result(job, None)

    def _result(self, job: str, source: Optional[Source]) -> Result:
        return read_of_job(self._call("retrieve", {"osol": options_text(job)}), job, source)

    def wait(self, job: str, seconds: Optional[float] = None) -> Result:
        """The result of a job as soon as it is finished. Asks again and again, at first quickly; for so many seconds, or without end.

        Raises `NotFinished` where the job won't be finished any more, since it was killed or is unknown, and `TimedOut`.
        """
        return self._wait(job, seconds, None)

    def _wait(self, job: str, seconds: Optional[float], source: Optional[Source]) -> Result:
        begun = time.monotonic()
        while True:
            try:
                return self._result(job, source)
            except NotFinished as still:
                if still.state not in ("waiting", "running"):
                    raise
                taken = time.monotonic() - begun
                pause = min(max(LATE * taken, SHORTEST_PAUSE), LONGEST_PAUSE)
                if seconds is not None and taken >= seconds:
                    raise TimedOut(f"{job} is {still.state} after {seconds:g} seconds") from None
            time.sleep(pause if seconds is None else min(pause, max(seconds - taken, 0)))

    def state(self, job: str) -> str:
        """How far a job is: `issued`, `waiting`, `running`, `killed` or `finished`, or `unknown`."""
        return state_of(self._call("retrieve", {"osol": options_text(job)}))

    def kill(self, job: str) -> str:
        """Asks a job that isn't over to stop, and gives up one that is; its state afterwards, `unknown` where it was given up."""
        return _jobs(self._call("kill", {"osol": options_text(job)})).states.get(job, "unknown")

    def jobs(self, job: Optional[str] = None) -> Jobs:
        """All jobs of the server; behind a proxy, of the server that has this one."""
        return _jobs(self._call("knock", {"osol": "" if job is None else options_text(job), "ospl": ""}))

    def _give_up(self, job: str) -> None:
        """Has a job given up, where it doesn't run and the server can be reached: what waits is killed by the first of two kills."""
        try:
            if self.kill(job) == "killed":
                self.kill(job)
        except Error:
            pass

    def _call(self, call: str, parts: dict[str, str], seconds: Optional[float] = None) -> str:
        """The text that a call returns."""
        body = _envelope(call, parts)
        if len(body) > MOST_DOCUMENT:
            raise NotSent(f"too long: a call has at most {MOST_DOCUMENT} bytes, and this one has {len(body)}")
        head = "\r\n".join([*self._fields, f"Content-Length: {len(body)}", "", ""]).encode()
        link = _Link(self.host, self.port, self._context, self.seconds if seconds is None else seconds)
        try:
            link.send(head + body)
            status, held = link.answer()
        finally:
            link.close()
        return _returned(call, status, held, bytes(link.came))


def _certified(osil: str, seconds: Optional[float]) -> Optional[str]:
    """As `certified` has it, which is read in only where it is wanted: it begins programs, as `program` does, which knows of servers."""
    from .certified import certified

    return certified(osil, seconds)


class _Link:
    """One connection, with one moment at which it must be over, and all bytes that came."""

    def __init__(self, host: str, port: int, context: Optional[ssl.SSLContext], seconds: float):
        self.until, self.seconds, self.came = time.monotonic() + seconds, seconds, bytearray()
        self.socket: socket.socket
        try:
            self.socket = socket.create_connection((host, port), timeout=max(seconds, 0.001))
            if context:
                self.socket = context.wrap_socket(self.socket, server_hostname=host)
        except OSError as failure:
            raise NotReached(f"nobody answers at {host} port {port}: {failure}") from failure

    def left(self) -> float:
        left = self.until - time.monotonic()
        if left <= 0:
            raise TimedOut(f"no answer within {self.seconds:g} seconds", bytes(self.came))
        return left

    def send(self, request: bytes) -> None:
        """Sends a request. Where that fails the peer may have answered all the same, as one does that finds a body too long."""
        self.socket.settimeout(self.left())
        try:
            self.socket.sendall(request)
        except socket.timeout:
            self.left()
        except OSError:
            pass

    def more(self) -> bool:
        """Takes what comes next; False where the peer has ended."""
        self.socket.settimeout(self.left())
        try:
            piece = self.socket.recv(65_536)
        except socket.timeout:
            raise TimedOut(f"no answer within {self.seconds:g} seconds", bytes(self.came)) from None
        except OSError as failure:
            raise NoReply(f"the connection broke, {failure}", bytes(self.came)) from failure
        self.came += piece
        return bool(piece)

    def answer(self) -> tuple[int, bytes]:
        """The status of the answer, and its body."""
        head = self.head()
        status, reason = int(head["status"]), head["reason"] or b""
        length = self.length(head["fields"])
        if status not in (200, 500):
            raise Status(status, reason.decode("latin-1"))
        begin, most = head.end(), LONGEST_ANSWER if length is None else length
        while (length is None or len(self.came) - begin < length) and len(self.came) - begin <= most:
            if not self.more():
                if length is not None:
                    raise NoReply(f"{len(self.came) - begin} bytes of {length} came", bytes(self.came))
                break
        if length is None and len(self.came) - begin > most:
            raise NoReply(f"more than {most} bytes", bytes(self.came))
        return status, bytes(self.came[begin : begin + most])

    def head(self) -> re.Match[bytes]:
        """The head of the answer (RFC 9112, section 4)."""
        while True:
            found = _HEAD.match(self.came)
            if found and found.end() <= LONGEST_HEAD:
                return found
            begun = bytes(self.came).lstrip(b"\r\n")[:7]
            if not b"HTTP/1.".startswith(begun) or len(self.came) >= LONGEST_HEAD or _ENDED_HEAD.search(self.came):
                raise NoReply("what came isn't the head of a response of HTTP/1.1", bytes(self.came))
            if not self.more():
                raise NoReply("the connection ended before a whole head", bytes(self.came))

    def length(self, fields: bytes) -> Optional[int]:
        """How long the body is; None where it goes as far as the connection does."""
        lengths = set()
        for line in fields.splitlines():
            name, _, value = line.partition(b":")
            if name.lower() == b"transfer-encoding":
                raise NoReply("a transfer encoding", bytes(self.came))
            if name.lower() == b"content-length":
                lengths.add(value.strip(b" \t").lstrip(b"0") or b"0")
        if len(lengths) > 1 or any(not it.isdigit() or len(it) > 8 or int(it) > LONGEST_ANSWER for it in lengths):
            raise NoReply("its length isn't one number within the limit", bytes(self.came))
        return int(lengths.pop()) if lengths else None

    def close(self) -> None:
        self.socket.close()


def _envelope(call: str, parts: dict[str, str]) -> bytes:
    """A call in its envelope. The options come first, so that a proxy needn't read the instance to see whose job it is; the
    instance is a CDATA section, since its references would make it twice as long."""
    inner = ""
    for name, text in parts.items():
        wrong = NO_XML.search(text)
        if wrong:
            raise NotSent(f"character {wrong.start()} of the {name} is none of XML: {wrong.group()!r}")
        inner += f"<{name}>{_section(text) if name == 'osil' else escaped(text)}</{name}>"
    return (
        '<soap:Envelope xmlns:soap="http://schemas.xmlsoap.org/soap/envelope/"><soap:Body>'
        f'<{call} xmlns="os.optimizationservices.org">{inner}</{call}></soap:Body></soap:Envelope>'
    ).encode()


def _section(text: str) -> str:
    """A text as CDATA. Its end can't stand in one, and a CR would be read as a line feed."""
    return "<![CDATA[" + text.replace("]]>", "]]]]><![CDATA[>").replace("\r", "]]>&#13;<![CDATA[") + "]]>"


def _returned(call: str, status: int, body: bytes, came: bytes) -> str:
    """The text that a reply returns (SOAP 1.1, sections 4 and 7). Raises the fault where it is one."""
    root = parsed(body, came)
    if local(root) != "Envelope":
        raise NoReply(f"its root is {local(root)}", came)
    held = list(only(root, "Body", came))
    if len(held) != 1:
        raise NoReply(f"{len(held)} elements in its Body", came)
    if status == 500:
        if local(held[0]) != "Fault":
            raise NoReply(f"{local(held[0])} with status 500", came)
        raise _fault(text_in(only(held[0], "faultcode", came), came), text_in(only(held[0], "faultstring", came), came))
    if local(held[0]) != call + "Response" or len(held[0]) != 1:
        raise NoReply(f"{local(held[0])} with {len(held[0])} elements, to a call {call}", came)
    text = text_in(only(held[0], call + "Return", came), came)
    if call == "send" and text not in ("true", "false"):
        raise NoReply(f"{text[:20]!r}, to a call send", came)
    return text


def _fault(code: str, text: str) -> Error:
    """What a fault stands for: a document that is refused, or itself."""
    return (code.rpartition(":")[2] in ("Client.Options", "Client.Process") and refusal(text)) or Fault(code, text)


def _jobs(document: str) -> Jobs:
    """What a process document says."""
    came = document.encode()
    root = parsed(document, came)
    found = below(root, "processData", "statistics")
    if local(root) != "ospl" or not found:
        raise NoReply("it is no process document", came)
    state, current, total = (text_in(only(found[0], name, came), came) for name in ("currentState", "currentJobCount", "totalJobsSoFar"))
    if state not in ("busy", "idle") or not current.isdigit() or not total.isdigit():
        raise NoReply("its counts are none", came)
    states = {job.get("jobID", ""): text_in(only(job, "state", came), came) for job in below(found[0], "jobs", "job")}
    return Jobs(state == "busy", int(current), int(total), states)


def _system_context() -> ssl.SSLContext:
    import ssl  # only where it is needed: it takes as long to read as all the rest

    return ssl.create_default_context()
