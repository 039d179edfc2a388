#!/bin/sh
# Times the reader of documents, and `check`, on documents that are made to be slow, of 1, 2 and 4 MB, and fails where
# 4 MB take more than 5 times 1 MB.
#   sh bench/hostile.sh
# With the word `documents` it tries the shapes of any XML document alone, for which the program isn't built.
set -eu
cd "$(dirname "$0")/.."
(cd crates/bench_documents && rt run <stdin) >/dev/null
[ "${1-}" = documents ] || ./os session </dev/null >/dev/null
exec python3 bench/hostile.py "$@"
