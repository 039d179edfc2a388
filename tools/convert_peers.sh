#!/usr/bin/env bash
# Makes OSiL of GLPK's own examples, MPS, LP and models, solves them, and compares with what `glpsol` reads in each file and finds of it.
# Prints a table: how each ends, its value beside GLPK's, and the seconds of both. It installs GLPK. OS_PROGRAM names another program
# than the one that is built here.
#   bash tools/convert_peers.sh
. "$(dirname "$0")/program.sh"
install_packages glpk-utils
exec python3 tools/convert_peers.py
