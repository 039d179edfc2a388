"""Posts the six calls by real clients to `session`, and says which answer isn't the one that the rules give.

    python3 tools/real_clients.py GSOAP     with the client that is built of `tools/gsoap_client.cpp`
"""

import http.client
import os
import socket
import subprocess
import sys
import tempfile
import threading
import xml.etree.ElementTree as tree
from xml.sax.saxutils import escape

import zeep

PROGRAM = os.environ["OS_PROGRAM"]
OSIL = '<osil><instanceData><variables><var/></variables><objectives><obj><coef idx="0">1</coef></obj></objectives></instanceData></osil>'
LIMITED = '<osol><optimization><solverOptions><solverOption name="nodeLimit" value="0"/></solverOptions></optimization></osol>'
SOAP = "http://schemas.xmlsoap.org/soap/envelope/"
OS = "os.optimizationservices.org"


def job(name):
    return f"<osol><general><jobID>{name}</jobID></general></osol>"


def plain(call, parts):
    inner = "".join(f"<{name}>{escape(text)}</{name}>" for name, text in parts)
    return f"<Envelope><Body><{call}>{inner}</{call}></Body></Envelope>"


def axis(call, parts):
    """As Axis 1.4 writes a call: typed parts, prefixes, a declaration."""
    inner = "".join(f'<{name} xsi:type="xsd:string">{escape(text)}</{name}>' for name, text in parts)
    return (
        f'<?xml version="1.0" encoding="UTF-8"?>\n<soapenv:Envelope xmlns:soapenv="{SOAP}" '
        'xmlns:xsd="http://www.w3.org/2001/XMLSchema" xmlns:xsi="http://www.w3.org/2001/XMLSchema-instance">\n <soapenv:Body>\n'
        f'  <ns1:{call} soapenv:encodingStyle="http://schemas.xmlsoap.org/soap/encoding/" xmlns:ns1="{OS}">\n   {inner}\n'
        f"  </ns1:{call}>\n </soapenv:Body>\n</soapenv:Envelope>"
    )


def gsoap(call, parts):
    """As gSOAP writes a call: a header, a language, single quotes, comments, CDATA."""
    inner = "".join(f"<ns1:{name} xml:lang='en'><![CDATA[{text}]]></ns1:{name}>" for name, text in parts)
    return (
        f"<?xml version='1.0' encoding=\"utf-8\"?><SOAP-ENV:Envelope xmlns:SOAP-ENV='{SOAP}' xmlns:ns1='{OS}'>"
        f"<SOAP-ENV:Header><ns1:trace>7</ns1:trace></SOAP-ENV:Header><!-- call --><SOAP-ENV:Body><ns1:{call}>{inner}</ns1:{call}>"
        "</SOAP-ENV:Body></SOAP-ENV:Envelope>"
    )


# call, parts, what the answer has: the text that is returned, or `fault`, its code and its text
CALLS = [
    ("getJobID", [("osol", "")], "os-1"),
    ("send", [("osil", OSIL), ("osol", job("os-1"))], "true"),
    ("send", [("osil", OSIL), ("osol", job("os-1"))], "false"),
    ("knock", [("ospl", ""), ("osol", "")], "finished"),
    ("retrieve", [("osol", job("os-1"))], 'type="optimal"'),
    ("kill", [("osol", job("os-1"))], "idle"),
    ("retrieve", [("osol", job("os-1"))], "unknown job"),
    ("solve", [("osil", OSIL), ("osol", "")], 'type="optimal"'),
    ("solve", [("osil", ""), ("osol", "")], "osil Malformed at 0"),
    ("solve", [("osil", OSIL), ("osol", LIMITED)], "fault Client.Options osol BadLimit at 4"),
]


class Session:
    """A port whose first connection is a run of `session`."""

    def __enter__(self):
        self.listener = socket.create_server(("127.0.0.1", 0))
        self.port = self.listener.getsockname()[1]
        self.thread = threading.Thread(target=self.serve)
        self.thread.start()
        return self

    def serve(self):
        link, _ = self.listener.accept()
        self.status = subprocess.run([PROGRAM, "session"], stdin=link, stdout=link, check=False).returncode
        link.close()

    def __exit__(self, *_):
        self.thread.join()
        self.listener.close()


def told(body):
    """The text that a reply returns, or what its fault tells."""
    texts = {element.tag.rpartition("}")[2]: element.text or "" for element in tree.fromstring(body).iter()}
    if "Fault" in texts:
        return fault(texts["faultcode"], texts["faultstring"])
    return next(text for name, text in texts.items() if name.endswith("Return"))


def fault(code, text):
    """A fault in one line, whatever prefix its code has."""
    return f"fault {code.rpartition(':')[2]} {text}"


def post(client, body, fields):
    client.putrequest("POST", fields.pop("target", "/os"), skip_host=True, skip_accept_encoding=True)
    for name, value in {"hOsT": "os.example", **fields, "content-LENGTH": str(len(body))}.items():
        client.putheader(name, value)
    client.endheaders(body)
    answer = client.getresponse()
    return answer.status, answer.read()


class Judge:
    """Counts the answers, and keeps those that aren't what was wanted."""

    def __init__(self):
        self.answers, self.failures = 0, []

    def take(self, name, wanted, text):
        self.answers += 1
        if wanted not in text:
            self.failures.append(f"{name}: wanted {wanted!r}, got {text[:200]!r}")

    def take_response(self, name, wanted, status, body):
        """A fault comes with 500, and a reply with 200 (SOAP 1.1, section 6.2)."""
        right = status == (500 if wanted.startswith("fault ") else 200)
        self.take(name, wanted, told(body) if right else f"{status} {body!r}")

    def take_end(self, name, status):
        if status != 0:
            self.failures.append(f"{name}: session ended with {status}")


def by_http_client(envelope, fields, judge):
    name = f"http.client, {envelope.__name__}"
    with Session() as session:
        client = http.client.HTTPConnection("127.0.0.1", session.port)
        for call, parts, wanted in CALLS:
            status, body = post(client, envelope(call, parts).encode(), dict(fields))
            judge.take_response(f"{name}, {call}", wanted, status, body)
        client.close()
    judge.take_end(name, session.status)


def by_curl(envelope, judge):
    name = f"curl, {envelope.__name__}"
    with tempfile.TemporaryDirectory() as folder, Session() as session:
        words = ["curl", "-s"]
        for number, (call, parts, _) in enumerate(CALLS):
            with open(f"{folder}/{number}", "w", encoding="utf-8") as it:
                it.write(envelope(call, parts))
            words += ["--next"] * (number > 0) + [
                "-H", "Content-Type: text/xml", "-H", 'SOAPAction: ""', "-H", "Expect: 100-continue", "--expect100-timeout", "0.05",
                "--data-binary", f"@{folder}/{number}", "-o", f"{folder}/{number}.out", "-w", "%{http_code} ", f"http://127.0.0.1:{session.port}/os",
            ]
        statuses = subprocess.run(words, capture_output=True, text=True, check=False).stdout.split()
        for number, (call, _, wanted) in enumerate(CALLS):
            with open(f"{folder}/{number}.out", "rb") as it:
                status = int(statuses[number]) if number < len(statuses) else 0
                judge.take_response(f"{name}, {call}", wanted, status, it.read())
    judge.take_end(name, session.status)


def by_zeep(judge):
    """Python's zeep, over the WSDL. It makes `true` and `false` of what a send returns."""
    with Session() as session:
        client = zeep.Client("examples/os.wsdl")
        service = client.create_service(f"{{{OS}}}OSSolverBinding", f"http://127.0.0.1:{session.port}/os")
        for call, parts, wanted in CALLS:
            try:
                text = getattr(service, call)(**dict(parts))
            except zeep.exceptions.Fault as told_fault:
                text = fault(told_fault.code, told_fault.message)
            judge.take(f"zeep, {call}", wanted, str(text).lower() if isinstance(text, bool) else text)
        client.transport.session.close()
    judge.take_end("zeep", session.status)


def by_gsoap(program, judge):
    """gSOAP in C++, over the WSDL: a line for each call."""
    with Session() as session:
        words = [dict(parts).get(name, "") if name else call for call, parts, _ in CALLS for name in ("", "osil", "osol", "ospl")]
        lines = subprocess.run([program, f"http://127.0.0.1:{session.port}/os", *words], capture_output=True, text=True, check=False).stdout.splitlines()
    for (call, _, wanted), line in zip(CALLS, lines + [""] * len(CALLS)):
        judge.take(f"gSOAP, {call}", wanted, fault(*line.split(" ", 2)[1:]) if line.startswith("fault ") else line)
    judge.take_end("gSOAP", session.status)


def main():
    judge = Judge()
    for envelope in (plain, axis, gsoap):
        by_curl(envelope, judge)
        by_http_client(envelope, {"Accept-Encoding": "gzip, deflate", "Connection": "keep-alive"}, judge)
    by_http_client(plain, {"target": "http://os.example/OSServer/services/OSSolverService", "EXPECT": "100-continue"}, judge)
    by_zeep(judge)
    by_gsoap(sys.argv[1], judge)
    print("\n".join(judge.failures) or f"{judge.answers} answers as the rules give them")
    return bool(judge.failures)


sys.exit(main())
