#!/usr/bin/env bash
# Times `check` on a long tree of cases and on one leaf with many multipliers, and on smaller ones of each kind, in one run.
#   bash bench/check.sh
set -euo pipefail
. "$(dirname "$0")/../tools/program.sh"
install_packages time
exec python3 bench/check.py
