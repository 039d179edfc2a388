#!/usr/bin/env bash
# One program on several processors: `solve_apart` with one worker and with four, beside one `solve`.
#   bash bench/apart.sh [SECONDS]
. "$(dirname "$0")/../tools/program.sh"
exec python3 bench/apart.py "$@"
