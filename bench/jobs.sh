#!/bin/sh
# Times what it costs to give a job up among 10,000: at the front of the table, spread and at the back, beside the same in a table of one job.
set -eu
cd "$(dirname "$0")/.."
command -v time >/dev/null || { apt-get update -q && apt-get install -y -q time; } >/dev/null
(cd crates/bench_jobs && rt run -- front 100 1000) >/dev/null
exec python3 bench/jobs.py
