#!/usr/bin/env bash
# Times `serve` over loopback, in one run: `knock` and `getJobID` by wrk at 1, 8 and 64 connections beside nginx, which answers a POST
# with a body of the same size, alone and beside two busy processes; jobs that many clients send, through 2 workers beside 1; and what a
# long search pays for its looks. It installs wrk and nginx.
#   bash bench/serve.sh
set -euo pipefail
cd "$(dirname "$0")/.."
for package in wrk nginx-light; do
    dpkg -s "$package" >/dev/null 2>&1 || { apt-get update -q && apt-get install -y -q --no-install-recommends "$package"; } >/dev/null
done
./os session </dev/null
PYTHONDONTWRITEBYTECODE=1 PYTHONPATH=tools python3 bench/serve.py
