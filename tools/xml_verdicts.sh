#!/usr/bin/env bash
# Compares this reader's verdict on well-formed and ill-formed documents with that of `xmllint --noout` (libxml2).
# BENCH_DOCUMENTS names another program of that crate than the one that is built here.
#   bash tools/xml_verdicts.sh
cd "$(dirname "$0")/.." || exit 2
. tools/packages.sh
install_packages libxml2-utils
[ -n "${BENCH_DOCUMENTS-}" ] || (cd crates/bench_documents && rt run <stdin) >/dev/null || exit
exec python3 tools/xml_verdicts.py
