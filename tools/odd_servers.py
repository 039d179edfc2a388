"""Servers of others, for trying who solves by them: one that lies or is full, and two that stand before a right one, of which one is slow, and of
the other each search ends early.
"""

import http.client
import http.server
import re
import subprocess
import tempfile
import threading
import time
import xml.etree.ElementTree as ElementTree

import gubnatris
import parts
from gubnatris.instances import read_instance
from serving import PROGRAM

ENVELOPE = '<Envelope><Body><{0}Response><{0}Return>{1}</{0}Return></{0}Response></Body></Envelope>'
FULL = "<Envelope><Body><Fault><faultcode>soap:Server.Full</faultcode><faultstring>10000 jobs</faultstring></Fault></Body></Envelope>"
KNOCKED = (
    "<ospl><processData><statistics><currentState>idle</currentState><currentJobCount>0</currentJobCount>"
    "<totalJobsSoFar>1</totalJobsSoFar><jobs/></statistics></processData></ospl>"
)
LONGEST = 300  # seconds that a right server may take for a call


def escaped(text):
    return text.replace("&", "&amp;").replace("<", "&lt;").replace(">", "&gt;")


class Handler(http.server.BaseHTTPRequestHandler):
    """Takes a call, and has its server say the status and the body of the answer."""

    protocol_version = "HTTP/1.1"

    def do_POST(self):
        body = self.rfile.read(int(self.headers["Content-Length"]))
        call = re.search(rb"<(getJobID|send|retrieve|kill|knock) ", body).group(1).decode()
        self.server.odd.asked += 1
        status, answer = self.server.odd.answer(call, body)
        self.send_response(status)
        self.send_header("Content-Length", str(len(answer)))
        self.end_headers()
        self.wfile.write(answer)

    def log_message(self, *_):
        pass


class Odd:
    """A server at a port of loopback, for as long as it is wanted."""

    def __enter__(self):
        self.asked = 0
        self.server = http.server.ThreadingHTTPServer(("127.0.0.1", 0), Handler)
        self.server.odd = self
        threading.Thread(target=self.server.serve_forever, daemon=True).start()
        self.url = f"http://127.0.0.1:{self.server.server_address[1]}"
        return self

    def __exit__(self, *_):
        self.server.shutdown()
        self.server.server_close()


class Lying(Odd):
    """Takes each part, and answers by a document of another one; or by that it is full, where there is none."""

    def __init__(self, document):
        self.document = document

    def answer(self, call, _):
        if self.document is None:
            return 500, FULL.encode()
        texts = {"getJobID": "os-1", "send": "true", "retrieve": self.document, "kill": KNOCKED, "knock": KNOCKED}
        return 200, ENVELOPE.format(call, escaped(texts[call])).encode()


class Slow(Odd):
    """Hands each call on to a right server, so many seconds later."""

    def __init__(self, port, seconds=0.0):
        self.port, self.seconds = port, seconds

    def answer(self, call, body):
        time.sleep(self.seconds)
        link = http.client.HTTPConnection("127.0.0.1", self.port, timeout=LONGEST)
        try:
            link.request("POST", "/os", body, {"Content-Type": "text/xml; charset=utf-8"})
            came = link.getresponse()
            return came.status, came.read()
        finally:
            link.close()


class EndingEarly(Slow):
    """A server whose searches end at once, with what `early` says of an instance with whole variables; all else it hands on."""

    def __init__(self, port, early):
        super().__init__(port)
        self.early, self.documents = early, {}

    def answer(self, call, body):
        texts = {element.tag.rpartition("}")[2]: element.text or "" for element in ElementTree.fromstring(body).iter()}
        job = re.search(r"os-\d+", texts.get("osol", ""))
        if call == "send" and re.search(r'type="[IJ]"', texts["osil"]):
            self.documents[job.group()] = self.early(texts["osil"])
            return 200, ENVELOPE.format(call, "true").encode()
        if call == "retrieve" and job.group() in self.documents:
            return 200, ENVELOPE.format(call, escaped(self.documents[job.group()])).encode()
        return super().answer(call, body)


# ---- what a search that ends early says


def ended_by_length(_):
    """Nothing: its result would be too long."""
    return parts.result_text(None, parts.Claim("unsure", cause="length"))


def ended_with_bound(osil):
    """The bound of its first two cases, with the tree that shows it, or that there is no point in them."""
    instance = read_instance(osil.encode())
    variables, writer = instance.variables, parts.Writer(instance)
    whole = solved(writer.text(variables, is_relaxed=True))
    branch = parts.branch_at(variables, whole.values) if whole.status == "optimal" else None
    if branch is None:
        return ended_by_length(osil)
    cases = [solved(writer.text(parts.with_branch(variables, branch, side), is_relaxed=True)) for side in (0, 1)]
    tree = (branch.node(), *cases[0].tree, *cases[1].tree)
    values = [case.objective for case in cases if case.status == "optimal"]
    if not values:
        return parts.result_text(instance, parts.Claim("infeasible", trees=(tree,)))
    bound = (max if instance.goals[0].maximise else min)(values)
    return parts.result_text(instance, parts.Claim("unsure", bound=bound, trees=(tree,), cause="killed"))


def solved(osil):
    """The result of one solve."""
    with tempfile.NamedTemporaryFile("w", suffix=".osil", encoding="utf-8") as file:
        file.write(osil)
        file.flush()
        return gubnatris.read_result(subprocess.run([PROGRAM, "solve", file.name], capture_output=True, text=True, check=False).stdout)
