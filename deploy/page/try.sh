#!/usr/bin/env bash
# Drives the page in Chromium without a window, before three servers behind HAProxy as they are deployed. Screenshots go to a folder. It
# installs chromium, chromium-driver, python3-selenium, haproxy and openssl.
#   bash deploy/page/try.sh [FOLDER]     out/page where none is named
. "$(dirname "$0")/../../tools/program.sh"
install_packages chromium chromium-driver python3-selenium haproxy openssl fonts-dejavu-core
PYTHONPATH=tools:deploy exec /usr/bin/python3 deploy/page/try.py "$@" # Debian's own Python, which has Debian's selenium
