#!/usr/bin/env bash
# How much of the gate's processor time each crate takes: its proof, its tests (and runs), its must-fail edits.
#   tools/gate_times.sh             runs the whole gate from nothing on a copy of the last commit, and prints a table
# Where the toolchain's `rt ci` takes names and keeps what it passed:
#   tools/gate_times.sh NAME ..     the same for these crates and those below them
#   tools/gate_times.sh --kept ..   the gate itself: what an earlier run on this machine passed isn't proved again and costs nothing here
# The seconds are of all processors together, so other work on the machine moves them little; its own status is the gate's.
set -u
cd "$(dirname "$0")/.." || exit 2
exec python3 tools/gate_times.py "$@"
