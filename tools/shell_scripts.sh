#!/usr/bin/env bash
# Reads each shell script of the repository by ShellCheck, which it installs, and prints what that says and how many passed.
#   bash tools/shell_scripts.sh
cd "$(dirname "$0")/.." || exit 2
. tools/packages.sh
install_packages shellcheck
passed=0
failed=0
while read -r script; do
    if shellcheck -x -P SCRIPTDIR "$script"; then passed=$((passed + 1)); else failed=$((failed + 1)); fi
done < <(git grep -lE '^#!(/bin/sh|/usr/bin/env bash|/bin/bash)|^# shellcheck shell=')
echo "$passed passed, $failed failed"
[ "$failed" -eq 0 ]
