#!/usr/bin/env bash
# A cluster of Slurm on loopback, a controller and two daemons: many files and the parts of one program, runs that are killed and go on, a
# task and a daemon that are lost. It installs slurm-wlm and munge.
#   bash deploy/slurm/try.sh [FILES]     where a number stands there, it measures so many small files beside the same without Slurm instead
. "$(dirname "$0")/../../tools/program.sh"
install_packages slurm-wlm munge
PYTHONPATH=deploy/slurm:tools:clients/python:bench exec python3 deploy/slurm/try.py "$@"
