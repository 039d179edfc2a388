#!/usr/bin/env bash
# Starts a server on a free port of loopback, and solves the examples by it; each certificate is checked.
#   bash clients/python/examples.sh
. "$(dirname "$0")/../../tools/program.sh"
port=$(python3 -c 'import socket; print(socket.create_server(("127.0.0.1", 0)).getsockname()[1])') || exit
coproc server { exec "$OS_PROGRAM" serve 127.0.0.1 "$port"; }
# shellcheck disable=SC2154 # bash sets it
trap 'kill "$server_PID" 2>/dev/null' EXIT
if ! read -r line <&"${server[0]}" || [ "$line" != listening ]; then
    echo "serve doesn't listen" >&2
    exit 1
fi
python3 clients/python/examples.py --server "http://127.0.0.1:$port" --check "$OS_PROGRAM"
