"""Times `session` beside `xmllint --noout`: seconds, MB/s, peak memory and the ratio of the times.

Each document is the OSiL text of a plain instance of 1,000 variables, the rest white space between elements.
`session` gets it escaped in an envelope, in one request; xmllint gets the envelope that the request carries.
"""

import os
import tempfile

from measuring import measured

VARIABLES = 1000


def osil(size):
    """The text of a plain instance, of this many bytes."""
    head = "<osil><instanceData><variables>" + "<var/>" * VARIABLES + "</variables><objectives><obj>"
    costs = [f'<coef idx="{j}">1</coef>' for j in range(VARIABLES)]
    tail = "</obj></objectives></instanceData></osil>"
    room = size - len(head) - sum(map(len, costs)) - len(tail)
    space = room // VARIABLES
    costs = [cost + " " * space for cost in costs]
    return head + "".join(costs) + " " * (room - space * VARIABLES) + tail


def envelope(text):
    escaped = text.replace("&", "&amp;").replace("<", "&lt;").replace(">", "&gt;")
    return f"<Envelope><Body><solve><osil>{escaped}</osil></solve></Body></Envelope>".encode()


def request(body):
    return f"POST /os HTTP/1.1\r\nHost: a\r\nContent-Length: {len(body)}\r\n\r\n".encode() + body


def main():
    print("document bytes | session s | MB/s | peak bytes a byte | xmllint s | MB/s | session / xmllint")
    first = None
    with tempfile.TemporaryDirectory() as folder:
        for size in (1_000_000, 2_000_000, 4_000_000):
            body = envelope(osil(size))
            call, document = os.path.join(folder, "call"), os.path.join(folder, "document")
            with open(call, "wb") as f:
                f.write(request(body))
            with open(document, "wb") as f:
                f.write(body)
            ours, peak = measured([os.path.abspath("crates/os_main/out/os_main"), "session"], call)
            peer, _ = measured(["xmllint", "--noout", document], "/dev/null")
            first = first or ours
            mb = len(body) / 1e6
            print(f"{len(body)} | {ours:.3f} | {mb / ours:.1f} | {peak / len(body):.1f} | {peer:.3f} | {mb / peer:.1f} | {ours / peer:.1f}")
        print(f"the time of the last over that of the first: {ours / first:.2f}")


main()
