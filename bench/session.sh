#!/usr/bin/env bash
# Times `session` on solve calls of 1, 2 and 4 MB beside `xmllint --noout` on the same documents, in one run.
#   bash bench/session.sh
set -euo pipefail
. "$(dirname "$0")/../tools/program.sh"
install_packages libxml2-utils time
exec python3 bench/session.py
