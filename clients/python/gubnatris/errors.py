"""What this package raises: each is an `Error`."""

from __future__ import annotations

from typing import Optional


class Error(Exception):
    """Whatever this package raises."""


class NotSent(Error):
    """Nothing was sent: a file couldn't be read, or a text is too long or has what no XML has."""


class NotReached(Error):
    """No connection could be made."""


class TimedOut(Error, TimeoutError):
    """The time ran out before a whole answer, or a finished job, came.

    `came`: the bytes that had come.
    """

    def __init__(self, text: str, came: bytes = b""):
        super().__init__(text)
        self.came = came


class NoReply(Error):
    """What came isn't a reply to the call.

    `why`: the first thing that is wrong. `came`: the bytes that came, as they came.
    """

    def __init__(self, why: str, came: bytes):
        super().__init__(f"no reply: {why}; {len(came)} bytes came: {came[:60]!r}{' ..' if len(came) > 60 else ''}")
        self.why, self.came = why, came


class Status(Error):
    """The answer has another status of HTTP than 200 and 500: 413 where the call is too long, 503 where a server is down.

    `status`: its three digits, as a number. `reason`: the words behind them.
    """

    def __init__(self, status: int, reason: str):
        super().__init__(f"http {status} {reason}".rstrip())
        self.status, self.reason = status, reason


class Fault(Error):
    """The answer is a fault of SOAP 1.1, as `soap:Server.Full` where the server holds as many jobs as it may.

    `code`, `text`: its faultcode and its faultstring.
    """

    def __init__(self, code: str, text: str):
        super().__init__(f"fault {code} {text}")
        self.code, self.text = code, text


class Refused(Error):
    """A document that was sent is refused (the pages `instances` and `options` of the rules have all names).

    `document`: `osil`, the instance, or `osol`, its options. `name`: why, as `TooBig`. `place`: where, or None: of bytes that are no
    XML how many stand before it, else the ordinal of the element, the root being 1. `told`: the name of the element or attribute
    that isn't taken, or None. `text`: all of it, as the server says it.
    """

    def __init__(self, text: str, document: str, name: str, place: Optional[int], told: Optional[str]):
        super().__init__(f"refused: {text}")
        self.text, self.document, self.name, self.place, self.told = text, document, name, place, told


class NotFinished(Error):
    """A job has no result: it is `issued`, `waiting`, `running` or `killed`, or `unknown` to the server.

    `job`: its name. `state`: one of these words.
    """

    def __init__(self, job: str, state: str):
        super().__init__(f"{job} is {state}")
        self.job, self.state = job, state


class NotInstance(Error):
    """A document isn't an instance, or not one within the limits; the text says where."""


class BadModel(Error, ValueError):
    """A model, or a number of it, is none that an instance can say; the text says which."""


class NotOffered(Error, ValueError):
    """An option that this version doesn't have."""


class NoProgram(Error):
    """There is no program to run on this machine."""


class ProgramFailed(Error):
    """The program ended without an answer.

    `status`: what it ended with, below 0 the signal that ended it.
    """

    def __init__(self, text: str, status: int):
        super().__init__(text)
        self.status = status


for _each in [it for it in globals().values() if isinstance(it, type) and issubclass(it, Error)]:
    _each.__module__ = "gubnatris"  # as it is imported and shown
