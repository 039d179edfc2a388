#!/usr/bin/env bash
# Times long connections to `session`: requests a second, peak memory, and how both grow with the number of requests.
#   bash bench/conversations.sh
set -euo pipefail
. "$(dirname "$0")/../tools/program.sh"
install_packages time
exec python3 bench/conversations.py
