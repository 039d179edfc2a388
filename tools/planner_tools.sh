#!/usr/bin/env bash
# Tries the tools of planners on real input: files into OSiL against GLPK's reading and the formats' references, results as they are
# shown against GLPK's solution, and the view of jobs against a real server. Prints how many checks passed, and which didn't. It
# installs GLPK and Graphviz. OS_PROGRAM names another program than the one that is built here.
#   bash tools/planner_tools.sh
. "$(dirname "$0")/program.sh"
install_packages glpk-utils graphviz
exec python3 tools/planner_tools.py
