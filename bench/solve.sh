#!/usr/bin/env bash
# Times `solve` beside exact solvers (QSopt_ex, GLPK's exact simplex, z3) and floating ones (GLPK, CBC) on the same programs, in
# one run, and with rounding cuts, variables that may be 0 besides and several goals beside what does without; stops with an error where
# exact objectives differ. It installs its peers.
#   bash bench/solve.sh
set -euo pipefail
cd "$(dirname "$0")/.."
for package in qsopt-ex glpk-utils coinor-cbc z3; do
    dpkg -s "$package" >/dev/null 2>&1 || { apt-get update -q && apt-get install -y -q "$package"; } >/dev/null
done
./os session </dev/null
export PYTHONDONTWRITEBYTECODE=1
python3 bench/solve.py
python3 bench/richer.py
