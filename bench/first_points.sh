#!/usr/bin/env bash
# Counts the nodes of searches that are handed a point, beside those of the same searches without one, and times both. Ends with 1 where
# the two don't find the same value, or the point isn't taken.
#   bash bench/first_points.sh
. "$(dirname "$0")/../tools/program.sh"
exec python3 bench/first_points.py
