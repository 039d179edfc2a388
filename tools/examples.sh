#!/usr/bin/env bash
# Tells whether the examples that `try_runs` and `os_main` read are those in `examples/`.
cd "$(dirname "$0")/.." || exit 1
status=0
for file in examples/*.os?l examples/unfinished/*.os[ir]l; do
    cmp "$file" "crates/try_runs/data/${file##*/}" || status=1
done
cmp examples/minimum.http crates/try_runs/data/minimum.http || status=1
cmp examples/minimum.http crates/os_main/stdin || status=1
exit $status
