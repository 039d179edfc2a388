#!/usr/bin/env bash
# Jobs a second of 1, 2 and 3 servers of one worker each behind HAProxy, beside one server called directly, in one run. It installs
# haproxy and openssl.
#   bash bench/machines.sh
. "$(dirname "$0")/../tools/program.sh"
install_packages haproxy openssl
WORKERS=1 PYTHONPATH=tools:deploy exec python3 bench/machines.py
