#!/usr/bin/env bash
# `call` of the built program against peers: `serve` of the same program, an HTTP server in Python that answers as Axis does, `nc`,
# and ports at which nobody listens; and `serve` against peers that wait for its end, write on without end, or are idle. Prints how
# many answers were those that the rules give, and which weren't. OS_PROGRAM names another program than the one that is built here.
#   bash tools/call_peers.sh
. "$(dirname "$0")/program.sh"
install_packages netcat-openbsd
exec python3 tools/call_peers.py
