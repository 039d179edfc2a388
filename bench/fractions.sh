#!/usr/bin/env bash
# Times ten million sums and ten million products of fractions at each size beside three peers, in one run: plain Rust,
# FLINT's fmpq and GMP's mpq. It stops where the results that fit aren't the same.
#   bash bench/fractions.sh
set -euo pipefail
cd "$(dirname "$0")/.."
work=$(mktemp -d)
trap 'rm -rf "$work"' EXIT
TIMEFORMAT=%U

for package in gcc libflint-dev libgmp-dev; do
    dpkg -s "$package" >/dev/null 2>&1 || { apt-get update -q && apt-get install -y -q "$package"; } >/dev/null
done
(cd crates/bench_fractions && rt run) >"$work/build" 2>&1 || { cat "$work/build"; exit 1; }
cp crates/bench_fractions/out/bench_fractions "$work/ours"
rustc -O --edition 2021 -o "$work/rust" bench/fractions.rs
gcc -O2 -o "$work/peers" bench/fractions.c -lflint -lgmp

# one program on the task, within the width or not
run() {
    case $1 in
        flint | gmp) "$work/peers" "$@" ;;
        *) "$work/$1" ;;
    esac <"$work/task"
}

# the processor seconds of a run
seconds() {
    { time run "$1" >/dev/null; } 2>&1
}

printf '%-16s %8s %8s %8s %8s %7s %7s %7s\n' task ours rust flint gmp /rust /flint /gmp
for task in {small,middle,mixed,large}\ {sum,product}; do
    echo "$task 1000 1" >"$work/task"
    run ours >"$work/answer"
    run rust | cmp - "$work/answer"
    run flint within | cmp - "$work/answer"
    run gmp within | cmp - "$work/answer"
    echo "$task 1000 10" >"$work/task"
    for _ in 1 2 3; do
        echo "$(seconds ours) $(seconds rust) $(seconds flint) $(seconds gmp)"
    done | awk -v task="$task" '
        { for (i = 1; i <= 4; i++) if (NR == 1 || $i < least[i]) least[i] = $i }
        END {
            printf "%-16s %8.2f %8.2f %8.2f %8.2f", task, least[1], least[2], least[3], least[4]
            printf " %7.2f %7.2f %7.2f\n", least[1] / least[2], least[1] / least[3], least[1] / least[4]
        }'
done
