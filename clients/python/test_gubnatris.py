"""Tries the client, against a server of its own and against peers that answer what they like.

    OS_PROGRAM=PROGRAM python3 clients/python/test_gubnatris.py

What is expected comes from the rules, from GLPK (`glpsol`), and from the instances themselves, whose points are worked out here.
"""

import doctest
import os
import re
import socket
import subprocess
import sys
import tempfile
import threading
import time
import unittest
import xml.etree.ElementTree as ElementTree
from fractions import Fraction
from pathlib import Path

import gubnatris
import gubnatris.certified
from gubnatris import Fault, NoReply, NotFinished, NotReached, NotSent, Refused, Server, Status, TimedOut

ROOT = Path(__file__).resolve().parents[2]
PROGRAM = os.path.abspath(os.environ.get("OS_PROGRAM", ROOT / "crates/os_main/out/os_main"))
EXAMPLES = sorted((ROOT / "examples").glob("*.osil"))
STATUSES = {"optimal": "OPTIMAL", "infeasible": "EMPTY", "unbounded": "UNBOUNDED", "bestSoFar": "OPTIMAL"}  # of gubnatris, of glpsol
BEYOND = "<osil><instanceData><variables><var/></variables><quadraticCoefficients><qTerm/></quadraticCoefficients></instanceData></osil>"
MINIMUM = '<osil><instanceData><variables><var lb="2/1" ub="5"/></variables></instanceData></osil>'


def spoilt(document):
    """The document with each number of its items in turn one greater."""
    for item in re.finditer("<item>([^<]*)</item>", document):
        for digits in re.finditer("[0-9]+", item[1]):
            begin = item.start(1) + digits.start()
            yield document[:begin] + str(int(digits[0]) + 1) + document[begin + len(digits[0]) :]


# ---- an instance, read apart from client and server


class Program:
    """The numbers of an OSiL document."""

    def __init__(self, path):
        data = next(it for it in ElementTree.parse(path).getroot() if it.tag.endswith("instanceData"))
        parts = {it.tag.rpartition("}")[2]: it for it in data}
        self.variables, self.rows = [], []
        for var in parts["variables"]:
            kind, low, high = var.get("type", "C"), number(var.get("lb", "0")), number(var.get("ub", "INF"))
            if kind == "B":
                low, high = max(low, 0), 1 if high is None else min(high, 1)
            self.variables += [(low, high, kind != "C")] * int(var.get("mult", "1"))
        for con in parts.get("constraints", ()):
            self.rows += [(number(con.get("lb", "-INF")), number(con.get("ub", "INF")))] * int(con.get("mult", "1"))
        goal = parts["objectives"][0] if len(parts.get("objectives", ())) else None
        self.maximise = goal is not None and goal.get("maxOrMin") == "max"
        self.costs = {int(it.get("idx")): number(it.text) for it in goal} if goal is not None else {}
        self.entries = [{} for _ in self.rows]
        self.take_matrix({it.tag.rpartition("}")[2]: run(it) for it in parts.get("linearConstraintCoefficients", ())})

    def take_matrix(self, lists):
        by_rows = "colIdx" in lists
        for line, (begin, end) in enumerate(zip(lists.get("start", ()), lists.get("start", ())[1:])):
            for place in range(int(begin), int(end)):
                other = int(lists["colIdx" if by_rows else "rowIdx"][place])
                row, column = (line, other) if by_rows else (other, line)
                self.entries[row][column] = lists["value"][place]

    def worth(self, point):
        return sum((cost * point[column] for column, cost in self.costs.items()), Fraction(0))

    def is_feasible(self, point):
        sums = [sum((factor * point[column] for column, factor in row.items()), Fraction(0)) for row in self.entries]
        ends = [(low, high) for low, high, _ in self.variables] + self.rows
        within = all((low is None or low <= at) and (high is None or at <= high) for (low, high), at in zip(ends, [*point, *sums]))
        return within and len(point) == len(self.variables) and all(at.denominator == 1 for at, it in zip(point, self.variables) if it[2])

    def lp(self):
        """The program in CPLEX's LP format."""
        lines = ["Maximize" if self.maximise else "Minimize", " goal: " + terms(self.costs or {0: 0}), "Subject To"]
        for place, (entries, (low, high)) in enumerate(zip(self.entries, self.rows)):
            for name, sign, end in (("l", ">=", low), ("u", "<=", high)):
                lines += [f" {name}{place}: {terms(entries)} {sign} {float(end)}"] if end is not None else []
        lines.append("Bounds")
        for place, (low, high, _) in enumerate(self.variables):
            lines.append(f" {'-inf' if low is None else float(low)} <= x{place} <= {'+inf' if high is None else float(high)}")
        return "\n".join([*lines, "Generals", *(f" x{place}" for place, it in enumerate(self.variables) if it[2]), "End", ""])


def number(text):
    return None if text.strip().lstrip("+-") == "INF" else Fraction(text.strip())


def run(list_of_els):
    return [number(el.text) + k * number(el.get("incr", "0")) for el in list_of_els for k in range(int(el.get("mult", "1")))]


def terms(entries):
    return " ".join(f"{'+' if factor >= 0 else '-'} {float(abs(factor))} x{column}" for column, factor in sorted(entries.items()))


def by_glpk(program):
    """The status and the objective that GLPK gives, whose search is told to be exact to ten digits."""
    with tempfile.TemporaryDirectory() as folder:
        Path(folder, "lp").write_text(program.lp(), encoding="utf-8")
        told = subprocess.run(["glpsol", "--lp", f"{folder}/lp", "--nopresol", "-o", f"{folder}/out"], capture_output=True, text=True, check=True)
        out = Path(folder, "out").read_text(encoding="utf-8")
    status = re.search(r"Status: +(?:INTEGER )?(\w+)", out).group(1)
    if "UNBOUNDED" in told.stdout:
        status = "UNBOUNDED"
    elif "NO PRIMAL FEASIBLE" in told.stdout or "NO INTEGER FEASIBLE" in told.stdout:
        status = "EMPTY"
    return status, float(re.search(r"Objective: +\w+ = (\S+)", out).group(1))


# ---- the server and the peers


def free_port():
    with socket.create_server(("127.0.0.1", 0)) as it:
        return it.getsockname()[1]


class Peer:
    """A port whose one connection is answered with these bytes; then it is closed, reset, or kept without a word."""

    def __init__(self, answer, then="close", pause=0.0):
        self.answer, self.then, self.pause, self.request = answer, then, pause, b""

    def __enter__(self):
        self.listener = socket.create_server(("127.0.0.1", 0))
        self.over, self.thread = threading.Event(), threading.Thread(target=self.serve)
        self.thread.start()
        return Server(f"http://127.0.0.1:{self.listener.getsockname()[1]}", seconds=0.5)

    def serve(self):
        link, _ = self.listener.accept()
        with link:
            while not self.is_whole():
                self.request += link.recv(65_536)
            try:
                for piece in [self.answer] if not self.pause else [self.answer[i : i + 1] for i in range(len(self.answer))]:
                    link.sendall(piece)
                    time.sleep(self.pause)
            except OSError:
                pass  # the client has gone, as it should
            if self.then == "reset":
                link.setsockopt(socket.SOL_SOCKET, socket.SO_LINGER, b"\1\0\0\0\0\0\0\0")
            elif self.then == "keep":
                self.over.wait()

    def is_whole(self):
        head, _, body = self.request.partition(b"\r\n\r\n")
        length = re.search(rb"Content-Length: (\d+)", head)
        return length is not None and len(body) >= int(length.group(1))

    def __exit__(self, *_):
        self.over.set()
        self.thread.join()
        self.listener.close()


def response(body, status="200 OK", fields=()):
    lines = [f"HTTP/1.1 {status}", "Content-Type: text/xml", *fields, f"Content-Length: {len(body.encode())}"]
    return ("\r\n".join(lines) + "\r\n\r\n" + body).encode()


def envelope(held):
    return f'<s:Envelope xmlns:s="http://schemas.xmlsoap.org/soap/envelope/"><s:Body>{held}</s:Body></s:Envelope>'


def returns(call, text):
    return envelope(f"<{call}Response><{call}Return>{text.replace('&', '&amp;').replace('<', '&lt;')}</{call}Return></{call}Response>")


def report(solution, state="finished", kind="normal", message=""):
    told = f"<message>{message}</message>" if message else ""
    return f'<osrl><general><generalStatus type="{kind}"/>{told}</general><job><status>{state}</status></job>{solution}</osrl>'


def solved(status, **parts):
    held = "".join(f'<otherSolutionResult name="os_cert.{name}">{items}</otherSolutionResult>' for name, items in parts.items())
    return report(f'<optimization><solution><status type="{status}"/><otherSolutionResults>{held}</otherSolutionResults></solution></optimization>')


POINT = {"point": "<item>1/2</item>", "value": "<item>-3</item>", "tree": "<item>bound</item>"}
FAULT = "<s:Fault><faultcode>soap:Server.Full</faultcode><faultstring>10000 jobs</faultstring></s:Fault>"
ISSUED = returns("getJobID", "os-7")

# What came, with the exception that it means and what that tells, to a call getJobID.
ANSWERS = [
    (b"", NoReply, "ended before a whole head"),
    (b"hello\n", NoReply, "isn't the head"),
    (b"HTTP/1.1 200 OK\r\nContent-Le", NoReply, "ended before a whole head"),
    (b"HTTP/1.1 two\r\n\r\n", NoReply, "isn't the head"),
    (b"HTTP/1.1 200 OK\r\n" + b"a: b\r\n" * 20_000, NoReply, "isn't the head"),
    (response(ISSUED)[:-9], NoReply, "bytes of"),
    (response(ISSUED, fields=["Transfer-Encoding: chunked"]), NoReply, "transfer encoding"),
    (response(ISSUED, fields=["Content-Length: 7"]), NoReply, "length"),
    (response(ISSUED, fields=["content-length: x"]), NoReply, "length"),
    (b"HTTP/1.1 200 OK\r\nContent-Length: 25165825\r\n\r\n", NoReply, "length"),
    (response("os-7"), NoReply, "isn't XML"),
    (response("<!DOCTYPE a>" + ISSUED), NoReply, "document type"),
    (response("<a/>"), NoReply, "its root is a"),
    (response(envelope("") + " "), NoReply, "0 elements in its Body"),
    (response(returns("knock", "os-7")), NoReply, "to a call getJobID"),
    (response(envelope("<getJobIDResponse><getJobIDReturn>os-7</getJobIDReturn><a/></getJobIDResponse>")), NoReply, "with 2 elements"),
    (response(envelope("<getJobIDResponse><getJobIDReturn><a/></getJobIDReturn></getJobIDResponse>")), NoReply, "an element in"),
    (response(envelope(FAULT)), NoReply, "to a call getJobID"),
    (response(ISSUED, "500 Internal Server Error"), NoReply, "with status 500"),
    (response(envelope(FAULT), "500 Internal Server Error"), Fault, "soap:Server.Full 10000 jobs"),
    (response("<html/>", "404 Not Found"), Status, "http 404 Not Found"),
    (b"HTTP/1.1 503 Service Unavailable\r\nConnection: close\r\n\r\n", Status, "http 503 Service Unavailable"),
    (b"HTTP/1.0 401\r\n\r\n", Status, "http 401"),
]

# Texts that a call retrieve returns, with what is wrong with each.
DOCUMENTS = [
    ("", "isn't XML"),
    ("<osil/>", "no result document"),
    ("<osrl/>", "no result document"),
    (report("", state="asleep"), "no state of a job"),
    (solved("best", **POINT), "no status of a solution"),
    (solved("optimal", point="<item>1</item>", tree="<item>bound</item>"), "0 parts os_cert.value"),
    (solved("optimal", **{**POINT, "value": "<item>6/4</item>"}), "no exact number: '6/4'"),
    (solved("optimal", **{**POINT, "value": "<item>0.5</item>"}), "no exact number"),
    (solved("optimal", **{**POINT, "value": f"<item>{'9' * 5000}</item>"}), "no exact number"),
    (solved("optimal", **{**POINT, "value": ""}), "no item where there is one for each objective"),
    (solved("unsure", cause="<item>killed</item><item>killed</item>"), "2 items where there is one"),
    (solved("optimal", **{**POINT, "point": "<item><a/></item>"}), "an element in item"),
    (solved("unsure", cause="<item>killed</item>", bound="<item>1</item>"), "0 parts os_cert.tree"),
    (solved("unsure", cause="<item>killed</item>", bound="<item>1</item><item>2</item>", tree="<item>bound</item>"), "2 items where there is one"),
    (solved("unsure", cause="<item>killed</item>", bound="<item>2/4</item>", tree="<item>bound</item>"), "no exact number: '2/4'"),
]


class Peers(unittest.TestCase):
    """What a peer answers is told for what it is, with the bytes that came."""

    def test_each_answer_has_its_meaning(self):
        for answer, kind, told in ANSWERS:
            with self.subTest(told, answer=answer[:80]), Peer(answer) as server:
                with self.assertRaises(kind) as raised:
                    server.submit(MINIMUM)
                self.assertIn(told, str(raised.exception))
                if kind is NoReply:
                    self.assertTrue(answer.startswith(raised.exception.came))
                    self.assertLessEqual(len(raised.exception.came), 16_384 + 65_536)
                    if len(answer) < 16_384 and "transfer" not in told and "length" not in told:
                        self.assertEqual(raised.exception.came, answer)

    def test_each_document_has_its_meaning(self):
        for document, told in DOCUMENTS:
            with self.subTest(told), Peer(response(returns("retrieve", document))) as server:
                with self.assertRaises(NoReply) as raised:
                    server.result("os-7")
                self.assertIn(told, str(raised.exception))
                self.assertEqual(raised.exception.came, document.encode())

    def test_answers_in_other_forms_are_taken(self):
        body = returns("retrieve", solved("optimal", **POINT))
        for answer in (
            response(body),
            b"\r\n\n" + response(body),
            b"HTTP/1.1 200\nX: y\n\n" + body.encode(),  # no length: as far as the connection goes
            response(body, fields=[f"Content-Length: 00{len(body)}"]),
            response(body) + b"HTTP/1.1 200 OK\r\n",
        ):
            with self.subTest(answer=answer[:60]), Peer(answer) as server:
                result = server.result("os-7")
                self.assertEqual((result.status, result.objective, result.values), ("optimal", Fraction(-3), (Fraction(1, 2),)))

    def test_several_objectives_are_taken(self):
        several = {**POINT, "value": "<item>-3</item><item>1/2</item>", "tree": "<item>bound</item><item>level 2</item><item>bound</item>"}
        with Peer(response(returns("retrieve", solved("optimal", **several)))) as server:
            result = server.result("os-7")
            self.assertEqual((result.objective, result.objectives), (Fraction(-3), (Fraction(-3), Fraction(1, 2))))
            self.assertEqual(result.tree, ("bound", "level 2", "bound"))

    def test_a_leaf_on_a_grid_is_taken(self):
        with Peer(response(returns("retrieve", solved("optimal", **{**POINT, "tree": "<item>grid 1/2 0:-1</item>"})))) as server:
            result = server.result("os-7")
            self.assertEqual((result.status, result.tree), ("optimal", ("grid 1/2 0:-1",)))

    def test_leaves_of_rows_alone_are_taken(self):
        with Peer(response(returns("retrieve", solved("optimal", **{**POINT, "tree": "<item>boundRows</item><item>farkasRows 1:-1</item>"})))) as server:
            result = server.result("os-7")
            self.assertEqual((result.status, result.tree), ("optimal", ("boundRows", "farkasRows 1:-1")))

    def test_a_bound_is_taken(self):
        parts = {"cause": "<item>killed</item>", "bound": "<item>5/2</item>", "tree": "<item>bound 1:-1/2</item>"}
        for status, more, objective in (("unsure", {}, None), ("bestSoFar", {"point": "<item>2</item>", "value": "<item>2</item>"}, 2)):
            with self.subTest(status), Peer(response(returns("retrieve", solved(status, **more, **parts)))) as server:
                result = server.result("os-7")
                self.assertEqual((result.status, result.bound, result.objective, result.cause), (status, Fraction(5, 2), objective, "killed"))
                self.assertEqual(result.tree, ("bound 1:-1/2",))
        with Peer(response(returns("retrieve", solved("unsure", cause=parts["cause"], tree=parts["tree"])))) as server:
            result = server.result("os-7")
            self.assertEqual((result.bound, result.tree), (None, None))

    def test_a_refusal_has_its_name_and_place(self):
        for message, wanted in (
            ("osil TooBig at 1004", ("osil", "TooBig", 1004, None)),
            ("osil Long", ("osil", "Long", None, None)),
            ("osil Beyond at 5 quadraticCoefficients", ("osil", "Beyond", 5, "quadraticCoefficients")),
        ):
            with Peer(response(returns("retrieve", report("", kind="error", message=message)))) as server, self.assertRaises(Refused) as raised:
                server.result("os-7")
            it = raised.exception
            self.assertEqual((it.document, it.name, it.place, it.told), wanted)
        with Peer(response(envelope(FAULT.replace("Server.Full", "Client.Options").replace("10000 jobs", "osol BadLimit at 4")), "500 No")) as server:
            with self.assertRaises(Refused) as raised:
                server.submit(MINIMUM, node_limit=0)
        self.assertEqual((raised.exception.document, raised.exception.name, raised.exception.place), ("osol", "BadLimit", 4))

    def test_want_of_memory_claims_nothing(self):
        with Peer(response(returns("retrieve", report("")))) as server:
            result = server.result("os-7")
        self.assertEqual((result.status, result.cause, result.objective), ("unsure", "memory", None))

    def test_a_peer_that_waits_is_given_up(self):
        for answer, pause in ((b"", 0), (b"HTTP/1.1 200 OK\r\n", 0), (response(ISSUED)[:-1], 0), (b"HTTP/1.1 200 OK\r\n" * 40, 0.05)):
            begun = time.monotonic()
            with self.subTest(answer=answer[:40], pause=pause), Peer(answer, "keep", pause) as server:
                with self.assertRaises(TimedOut) as raised:
                    server.submit(MINIMUM)
                self.assertLess(time.monotonic() - begun, 4)
                self.assertTrue(answer.startswith(raised.exception.came))
                self.assertEqual(bool(raised.exception.came), bool(answer))

    def test_a_peer_that_resets_is_told(self):
        for answer in (b"", response(ISSUED)[:-9]):
            with self.subTest(answer=answer), Peer(answer, "reset") as server, self.assertRaises(NoReply) as raised:
                server.submit(MINIMUM)
            self.assertTrue(answer.startswith(raised.exception.came))

    def test_a_request_says_what_it_should(self):
        peer = Peer(response(ISSUED))
        with peer as server:
            named = Server(f"http://127.0.0.1:{server.port}/a/b", user="ann", password="p:q")
            self.assertEqual(named._call("getJobID", {"osol": "<&"}), "os-7")
        head, _, body = peer.request.partition(b"\r\n\r\n")
        lines = head.split(b"\r\n")
        self.assertEqual(lines[0], b"POST /a/b HTTP/1.1")
        self.assertIn(b"Host: 127.0.0.1:%d" % server.port, lines)
        self.assertIn(b"Authorization: Basic YW5uOnA6cQ==", lines)  # ann:p:q in base64
        self.assertIn(b"Content-Length: %d" % len(body), lines)
        self.assertIn(b"<osol>&lt;&amp;</osol>", body)


class Served(unittest.TestCase):
    """A server answers as the rules say."""

    @classmethod
    def setUpClass(cls):
        cls.port = free_port()
        cls.process = subprocess.Popen([PROGRAM, "serve", "127.0.0.1", str(cls.port)], stdout=subprocess.PIPE)
        assert cls.process.stdout.readline() == b"listening\n"
        cls.server = Server(f"http://127.0.0.1:{cls.port}")

    @classmethod
    def tearDownClass(cls):
        cls.process.kill()
        cls.process.communicate()

    def test_examples_have_the_values_of_glpk(self):
        self.assertEqual(len(EXAMPLES), 7)
        for path in EXAMPLES:
            with self.subTest(path.stem):
                program, result = Program(path), self.server.solve(path)
                status, objective = by_glpk(program)
                self.assertEqual(STATUSES[result.status], status)
                if status == "OPTIMAL":
                    self.assertAlmostEqual(float(result.objective), objective, delta=1e-6 * max(1, abs(objective)))
                if result.values is not None:
                    self.assertTrue(program.is_feasible(result.values))
                    self.assertEqual(program.worth(result.values), result.objective)
                if result.ray is not None:
                    further = [at + 1000 * step for at, step in zip(result.values, result.ray)]
                    self.assertTrue(program.is_feasible(further))
                    self.assertGreater(program.worth(further), result.objective)

    def test_certificates_are_accepted(self):
        for path in EXAMPLES:
            result = self.server.solve(path)
            with self.subTest(path.stem), tempfile.NamedTemporaryFile("w", suffix=".osrl", encoding="utf-8") as file:
                file.write(result.document)
                file.flush()
                told = subprocess.run([PROGRAM, "check", path, file.name], capture_output=True, text=True, check=False)
                self.assertEqual(told.stdout, f"accepted {result.status}\n")

    def test_a_result_that_is_handed_in_is_the_answer(self):
        program = gubnatris.Program(PROGRAM)
        for path in EXAMPLES:
            found = self.server.solve(path)
            for answer in (
                self.server.solve(path, node_limit=1, turn_limit=1, result=found),
                self.server.wait(self.server.submit(path, node_limit=1, turn_limit=1, result=found.document)).of(path),
                program.solve(path, node_limit=1, turn_limit=1, result=found),
            ):
                with self.subTest(path.stem):
                    self.assertEqual(*(re.sub("<jobID>.*?</jobID>", "", it.document) for it in (answer, found)))
                    self.assertEqual((answer.values, answer.certificate, answer.message), (found.values, found.certificate, ""))

    def test_what_is_handed_in_is_checked(self):
        program = gubnatris.Program(PROGRAM)
        refused = 0
        for path in (ROOT / "examples/knapsack.osil", ROOT / "examples/diet.osil", ROOT / "examples/infeasible_schedule.osil"):
            found = program.solve(path)
            for handed in [*spoilt(found.document), *(program.solve(other).document for other in EXAMPLES if other != path), "", "<osrl/>"]:
                line, answer = program.check(path, handed), program.solve(path, result=handed)
                with self.subTest(path.stem, line=line):
                    if line.startswith("accepted"):
                        self.assertEqual(answer.message, "")
                        self.assertEqual(answer.certificate, gubnatris.read_result(handed).certificate)
                    else:
                        refused += 1
                        self.assertEqual(answer.message, f"os_cert.result {line}")
                        self.assertEqual((answer.status, answer.values, answer.tree), (found.status, found.values, found.tree))
        self.assertGreater(refused, 50)

    def test_what_can_t_be_handed_in_isn_t_sent(self):
        before = self.server.jobs()
        for result in ("\x00", "x" * 5_000_000):
            with self.assertRaises(NotSent):
                self.server.solve(EXAMPLES[0], result=result)
        self.assertEqual(self.server.jobs().states, before.states)

    def test_a_certificate_is_made_and_handed_in(self):
        tool = gubnatris.certified.TOOL
        with tempfile.TemporaryDirectory() as folder:
            for body, result in (
                (f"open(sys.argv[3], 'w').write({self.server.solve(EXAMPLES[0]).document!r})", "optimal"),  # as the tool does
                ("sys.exit(1)", None),  # it shows nothing
            ):
                gubnatris.certified.TOOL = Path(folder, "certify")
                gubnatris.certified.TOOL.write_text(f"import sys\nassert sys.argv[4:] == ['--seconds', '2'], sys.argv\n{body}\n", encoding="utf-8")
                try:
                    found = self.server.solve(EXAMPLES[0], turn_limit=1, seconds=1.5, certify=True)
                finally:
                    gubnatris.certified.TOOL = tool
                self.assertEqual((found.status, found.cause), (result, None) if result else (found.status, "turnLimit 1"))
            for body, wanted in (("print('certify: no core', file=sys.stderr); sys.exit(6)", "status 6: certify: no core"), (None, "doesn't stand in a checkout")):
                gubnatris.certified.TOOL = Path(folder, "certify" if body else "no_tool")
                if body:
                    gubnatris.certified.TOOL.write_text(f"import sys\n{body}\n", encoding="utf-8")
                try:
                    with self.assertRaisesRegex(gubnatris.Error, wanted):
                        self.server.solve(EXAMPLES[0], certify=True)
                finally:
                    gubnatris.certified.TOOL = tool

    def test_nothing_is_left_behind(self):
        before = self.server.jobs()
        self.server.solve(EXAMPLES[0])
        with self.assertRaises(Refused):
            self.server.solve("<osil/>")
        with self.assertRaises(Refused):
            self.server.solve(EXAMPLES[0], node_limit=0)
        self.assertEqual(self.server.jobs().states, before.states)
        self.assertEqual(self.server.jobs().total, before.total + 2)  # the third is refused before it has a number

    def test_a_job_goes_its_way(self):
        job = self.server.submit(EXAMPLES[0])
        self.assertRegex(job, r"\Aos-\d+\Z")
        result = self.server.wait(job, 10)
        self.assertEqual(self.server.state(job), "finished")
        self.assertEqual(self.server.result(job), result)
        self.assertEqual(self.server.jobs().states[job], "finished")
        self.assertEqual(self.server.kill(job), "unknown")
        for call in (self.server.result, self.server.wait):
            with self.assertRaises(NotFinished) as raised:
                call(job)
            self.assertEqual((raised.exception.job, raised.exception.state), (job, "unknown"))

    def test_a_name_is_told_before_the_instance_is_sent(self):
        told, before = [], self.server.jobs().states
        job = self.server.submit(EXAMPLES[0], named=lambda job: told.append((job, self.server.state(job))))
        self.assertEqual(told, [(job, "issued")])
        self.server.wait(job, 10)
        self.server.kill(job)
        with self.assertRaises(KeyError):
            self.server.submit(EXAMPLES[0], named=lambda job: {}[job])
        self.assertEqual(self.server.jobs().states, before)

    def test_a_search_is_stopped_in_time(self):
        # The sum of 2 x over 61 whole variables is at most 61, which is odd: no branch ends early, so the limit of cases would be passed.
        rows = '<constraints><con ub="61"/></constraints><linearConstraintCoefficients><start><el>0</el><el>61</el></start>'
        rows += '<colIdx><el mult="61" incr="1">0</el></colIdx><value><el mult="61">2</el></value></linearConstraintCoefficients>'
        costs = "".join(f'<coef idx="{j}">1</coef>' for j in range(61))
        goal = f'<objectives><obj maxOrMin="max">{costs}</obj></objectives>'
        text = f'<osil><instanceData><variables><var type="B" mult="61"/></variables>{goal}{rows}</instanceData></osil>'
        before, begun = self.server.jobs().states, time.monotonic()
        result = self.server.solve(text, node_limit=1_000_000, turn_limit=100_000_000, seconds=0.3)
        self.assertLess(time.monotonic() - begun, 20)
        self.assertEqual(result.cause, "timeLimit 3/10")
        self.assertIn(result.status, ("bestSoFar", "unsure"))
        self.assertEqual(self.server.jobs().states, before)

    def test_refusals_have_names_and_places(self):
        for text, wanted in (
            ("<osil/>", ("osil", "Missing", 1, None)),
            ("", ("osil", "Malformed", 0, None)),
            (BEYOND, ("osil", "Beyond", 5, "quadraticCoefficients")),  # the part is told, and not its first child element
            (MINIMUM, ("osil", "Number", 4, None)),  # 2/1 is no bound
            ("<a>\r\n</b>", ("osil", "Malformed", 7, None)),  # the CR is a byte of its own
            ("<a>]]></a>", ("osil", "Malformed", 5, None)),
        ):
            with self.subTest(text), self.assertRaises(Refused) as raised:
                self.server.solve(text)
            it = raised.exception
            self.assertEqual((it.document, it.name, it.place, it.told), wanted)

    def test_an_instance_comes_as_it_is(self):
        text = EXAMPLES[0].read_text(encoding="utf-8").replace("<instanceData>", "<!-- a]] > &amp; \u00e9 \u2003 --><![CDATA[ <jobID>os-1</jobID> ]]><instanceData>")
        self.assertEqual(self.server.solve("\ufeff" + text.replace("\n", "\r\n")).objective, 42)  # its own header says so

    def test_a_job_that_is_killed_first_has_no_result(self):
        job = self.server._call("getJobID", {"osol": ""})
        self.assertEqual(self.server.state(job), "issued")
        self.assertEqual(self.server.kill(job), "killed")
        with self.assertRaises(NotFinished) as raised:
            self.server.wait(job)
        self.assertEqual(raised.exception.state, "killed")
        self.server.kill(job)

    def test_a_fault_has_its_code(self):
        with self.assertRaises(Fault) as raised:
            self.server._call("fly", {})
        self.assertEqual((raised.exception.code, raised.exception.text), ("soap:Client.Call", "unknown call fly"))

    def test_names_are_the_instance_s(self):
        self.assertEqual(gubnatris.names(ROOT / "examples/diet.osil"), ["oats", "milk", "eggs", "bread"])
        self.assertEqual(gubnatris.names(ROOT / "examples/knapsack.osil"), [f"x{j}" for j in range(6)])
        two = '<var name="a" mult="2"/><var name="b"/>'
        self.assertEqual(gubnatris.names(f"<osil><instanceData><variables>{two}</variables></instanceData></osil>"), ["x0", "x1", "b"])
        for text in ("<osil", '<osil><instanceData><variables><var mult="1001"/></variables></instanceData></osil>'):
            with self.assertRaises(NotSent):
                gubnatris.names(text)


    def test_what_is_shown_comes(self):
        for name in ("gubnatris/__init__.py", "README.md"):
            text = Path(__file__).parent.joinpath(name).read_text(encoding="utf-8").replace("127.0.0.1:8080", f"127.0.0.1:{self.port}")
            shown = doctest.DocTestParser().get_doctest(text.replace('"examples/', f'"{ROOT}/examples/'), {}, name, name, 0)
            told = doctest.DocTestRunner(verbose=False).run(shown)
            self.assertGreater(told.attempted, 4)
            self.assertEqual(told.failed, 0)


    def test_the_script_solves_files(self):
        with tempfile.TemporaryDirectory() as folder:
            bad, none, long = (Path(folder, name) for name in ("bad.osil", "none.osil", "long.osil"))
            bad.write_text("<osil/>", encoding="utf-8")
            long.write_bytes(b" " * 4_194_305)
            url = f"http://127.0.0.1:{self.port}"
            for words, status, out, err in (
                (["--server", url, EXAMPLES[0]], 0, "accepted optimal", ""),
                (["--server", url, EXAMPLES[0], bad], 1, "osil Missing at 1", ""),
                (["--server", url, none], 3, "", "none: .* can't be read: No such file or directory"),
                (["--server", url, long], 3, "", "long: .* is too long: .*"),
                (["--server", f"http://127.0.0.1:{free_port()}", EXAMPLES[0]], 6, "", "capital_budget: nobody answers at .*"),
                (["--server", "nobody"], 2, "", ".*not the URL of a server: 'nobody'"),
                (["--server", url, "--nodes", "0", EXAMPLES[0]], 1, "osol BadLimit at 4", ""),
            ):
                with self.subTest(status=status, out=out):
                    told = script(*words)
                    self.assertEqual(told.returncode, status)
                    self.assertIn(out, told.stdout)
                    self.assertRegex(told.stderr.replace("\n", " ").strip(), f"\\A{err}\\Z")
        with Peer(b"hello\n") as server:
            told = script("--server", f"http://127.0.0.1:{server.port}", EXAMPLES[0])
        self.assertEqual((told.returncode, told.stderr.count("\n")), (7, 1))
        self.assertIn("6 bytes came: b'hello\\n'", told.stderr)


def script(*words):
    """A run of `examples.py`."""
    return subprocess.run(
        [sys.executable, Path(__file__).with_name("examples.py"), "--check", PROGRAM, *words], capture_output=True, text=True, check=False
    )


class NotCalled(unittest.TestCase):
    """What can't be sent is told before anything is."""

    def test_files(self):
        server = Server("http://127.0.0.1:1")
        with tempfile.TemporaryDirectory() as folder:
            Path(folder, "long").write_bytes(b" " * 4_194_305)
            Path(folder, "bytes").write_bytes(b"<osil>\xff</osil>")
            for name, told in (("none", "No such file"), ("", "Is a directory"), ("long", "too long"), ("bytes", "isn't UTF-8: byte 6")):
                with self.subTest(name), self.assertRaises(NotSent) as raised:
                    server.solve(Path(folder, name))
                self.assertIn(told, str(raised.exception))

    def test_texts(self):
        for text, told in (("<osil>\0</osil>", "character 6"), ("a" * 4_194_305, "too long")):
            with self.assertRaises(NotSent) as raised:
                Server("http://127.0.0.1:1")._call("solve", {"osil": text})
            self.assertIn(told, str(raised.exception))

    def test_nobody(self):
        with self.assertRaises(NotReached):
            Server(f"http://127.0.0.1:{free_port()}").jobs()

    def test_urls(self):
        for url in ("127.0.0.1:8080", "ftp://a", "http://", "http://a:b"):
            with self.subTest(url), self.assertRaises(ValueError):
                Server(url)


if __name__ == "__main__":
    if not os.access(PROGRAM, os.X_OK):
        sys.exit(f"no program to try with: {PROGRAM}")
    unittest.main()
