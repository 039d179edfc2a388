#!/usr/bin/env bash
# Tries tools/certify, tools/vipr and tools/vipr_check: small programs of each kind beside `solve`, GLPK's own models, bad input and solvers
# that lie, and the files of certificates. Prints how many checks passed, and which didn't. It installs GLPK and CBC, and builds the core.
# OS_PROGRAM names another program than the one that is built here; `random N`, `models`, `bench`, `inputs` or `vipr` try a part.
#   bash tools/certify.sh
# shellcheck source=tools/program.sh
. "$(dirname "$0")/program.sh"
install_packages glpk-utils coinor-cbc
bash tools/certify_core/build.sh tools/certify_core/out || exit
exec python3 tools/certify_tables.py "$@"
