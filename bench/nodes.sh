#!/bin/sh
# Times `solve` on searches of 2,001, 20,001 and 200,001 nodes, in one run.
set -eu
cd "$(dirname "$0")/.."
./os session </dev/null >/dev/null
PYTHONDONTWRITEBYTECODE=1 exec python3 bench/nodes.py
