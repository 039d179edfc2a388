#!/usr/bin/env bash
# `serve` over a journal under recorded clients, ended by `kill -9` at a random moment 200 times, and opened again each time: each number,
# text, document and kill that was acknowledged is there, and all answers stand in one order; behind every fifth crash the journals are
# written again. Before that, journals with each of their bytes changed, and a file that may grow no longer. OS_PROGRAM names another
# program than the one that is built here.
#   bash tools/crashes.sh [TIMES]
. "$(dirname "$0")/program.sh"
exec python3 tools/crashes.py "$@"
