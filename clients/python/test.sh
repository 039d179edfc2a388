#!/usr/bin/env bash
# Tries the Python client by test_gubnatris.py. It installs GLPK. OS_PROGRAM names another program than the one that is built here.
#   bash clients/python/test.sh
. "$(dirname "$0")/../../tools/program.sh"
install_packages glpk-utils
exec python3 clients/python/test_gubnatris.py
