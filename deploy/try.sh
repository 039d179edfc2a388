#!/usr/bin/env bash
# Three servers behind HAProxy, as they are deployed, on loopback: who comes in; calls that find their job's server; a server that is
# killed while recorded clients are answered, whose answers must stand in one order for each server; one that comes back; one that is
# drained; one that is short of memory; and a standby that takes a killed server's journal over, six times. It installs haproxy and openssl.
#   bash deploy/try.sh [CALLS]
. "$(dirname "$0")/../tools/program.sh"
install_packages haproxy openssl
PYTHONPATH=tools:clients/python exec python3 deploy/try.py "$@"
