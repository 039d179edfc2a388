#!/usr/bin/env bash
# What a server holds and says grows with (docs/SCALE.md).
#   bash bench/scale.sh [JOBS]
. "$(dirname "$0")/../tools/program.sh"
PYTHONPATH=tools:bench exec python3 bench/scale.py "$@"
