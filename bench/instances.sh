#!/usr/bin/env bash
# Times `check` on growing instances, up to the limits, beside `xmllint --noout` and Python's `xml.etree` on the same instances, in
# one run.
#   bash bench/instances.sh
set -euo pipefail
. "$(dirname "$0")/../tools/program.sh"
install_packages libxml2-utils time
exec python3 bench/instances.py
