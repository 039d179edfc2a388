#!/usr/bin/env bash
# Times what a journal keeps: effects a second that 1, 8 and 64 clients have stored by `serve --journal` over loopback, beside SQLite that
# stores the same texts in one table (WAL, synchronous=FULL), on the disk and on a file in memory; and how long it takes to open a journal
# of 1 GB, with which memory. OS_PROGRAM names another program than the one that is built here.
#   bash bench/journal.sh
set -euo pipefail
cd "$(dirname "$0")/.."
[ "${OS_PROGRAM:-}" ] || ./os session </dev/null
PYTHONDONTWRITEBYTECODE=1 PYTHONPATH=tools python3 bench/journal.py
