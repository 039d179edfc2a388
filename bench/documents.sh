#!/bin/sh
# Times the reader of documents beside `xmllint --noout` (libxml2) and `xmlwf` (expat) on OSiL documents, in one run.
set -eu
cd "$(dirname "$0")/.."
for tool in xmllint:libxml2-utils xmlwf:expat time:time; do
    command -v "${tool%%:*}" >/dev/null || { apt-get update -q && apt-get install -y -q "${tool##*:}"; } >/dev/null
done
(cd crates/bench_documents && rt run <stdin) >/dev/null
exec python3 bench/documents.py
