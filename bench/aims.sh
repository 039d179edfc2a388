#!/usr/bin/env bash
# Figures that have an aim and need a quiet machine, each beside its aim, in one go of ten minutes at most. It installs haproxy, openssl,
# slurm-wlm and munge.
#   bash bench/aims.sh
. "$(dirname "$0")/../tools/program.sh"
install_packages haproxy openssl slurm-wlm munge
PYTHONPATH=tools:deploy:clients/python:bench exec python3 bench/aims.py
