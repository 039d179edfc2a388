"""Peers that tests of the clients meet: ports at which nobody answers, and servers that end within a call."""

from __future__ import annotations

import contextlib
import socket
import threading
from typing import Iterator, Optional


def nobody() -> str:
    """The URL of a port at which nobody listens."""
    with socket.create_server(("127.0.0.1", 0)) as free:
        return _url(free)


@contextlib.contextmanager
def ending_server(heard: Optional[list[bytes]] = None) -> Iterator[str]:
    """The URL of a server that takes a call's first bytes, which it may be asked to keep, and ends."""

    def serve() -> None:
        with contextlib.suppress(OSError):  # where nobody called
            link, _ = listener.accept()
            with link:
                (heard if heard is not None else []).append(link.recv(65_536))

    with socket.create_server(("127.0.0.1", 0)) as listener:
        thread = threading.Thread(target=serve)
        thread.start()
        try:
            yield _url(listener)
        finally:
            listener.shutdown(socket.SHUT_RDWR)
            thread.join()


def _url(listener: socket.socket) -> str:
    return f"http://127.0.0.1:{listener.getsockname()[1]}"
