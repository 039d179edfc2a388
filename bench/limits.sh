#!/usr/bin/env bash
# `solve` with a limit of time: how long it takes. Ends with 1 where a run takes 0.2 s more than its limit, or tells another cause.
#   bash bench/limits.sh
. "$(dirname "$0")/../tools/program.sh"
exec python3 bench/limits.py
