#!/usr/bin/env bash
# Real clients on `serve` over loopback: curl and wrk at 1, 8 and 64 connections, 64 clients whose 100,000 answers must stand in one
# history of the table of jobs, a client that sends a byte a second, clients that keep the server waiting, and more of them than it has
# seats. It installs curl, strace and wrk. OS_PROGRAM names another program than the one that is built here.
#   bash tools/serve_clients.sh [CALLS]
. "$(dirname "$0")/program.sh"
install_packages curl strace wrk
exec python3 tools/serve_clients.py "$@"
