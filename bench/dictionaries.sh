#!/usr/bin/env bash
# Times exchanges of columns beside a peer that makes the same ones on rows of FLINT's fmpq, in one run. It stops where the
# goal's equations that they end with aren't the same.
#   bash bench/dictionaries.sh
set -euo pipefail
cd "$(dirname "$0")/.."
work=$(mktemp -d)
trap 'rm -rf "$work"' EXIT
TIMEFORMAT=%U

for package in gcc libflint-dev libgmp-dev; do
    dpkg -s "$package" >/dev/null 2>&1 || { apt-get update -q && apt-get install -y -q "$package"; } >/dev/null
done
(cd crates/bench_dictionaries && rt run) >"$work/build" 2>&1 || { cat "$work/build"; exit 1; }
cp crates/bench_dictionaries/out/bench_dictionaries "$work/ours"
gcc -O2 -o "$work/flint" bench/dictionaries.c -lflint -lgmp

# the processor seconds of a run
seconds() {
    { time "$work/$1" <"$work/program" >/dev/null; } 2>&1
}

printf '%-10s %8s %8s %7s\n' program ours flint /flint
for program in 'transport 400' 'random 600' 'chains 200'; do
    # shellcheck disable=SC2086
    python3 bench/dictionaries.py $program >"$work/program"
    "$work/flint" <"$work/program" >"$work/answer"
    "$work/ours" <"$work/program" | cmp - "$work/answer"
    for _ in 1 2 3; do
        echo "$(seconds ours) $(seconds flint)"
    done | awk -v program="${program% *}" '
        { for (i = 1; i <= 2; i++) if (NR == 1 || $i < least[i]) least[i] = $i }
        END { printf "%-10s %8.2f %8.2f %7.2f\n", program, least[1], least[2], least[1] / least[2] }'
done
