#!/usr/bin/env bash
# Builds certify_core into the folder that is named; what is there and newer than its sources stays. It installs the compiler and Clp, Cgl,
# FLINT and GMP of Debian's where they are wanting.
#   bash tools/certify_core/build.sh FOLDER
set -eu
folder=$(realpath -m -- "$1")
mkdir -p "$folder"
exec 9>"$folder/lock"
flock 9 # two that begin at once build it once
cd "$(dirname "${BASH_SOURCE[0]}")"
# shellcheck source=tools/packages.sh
. ../packages.sh
install_packages g++ make coinor-libclp-dev coinor-libcgl-dev libflint-dev libgmp-dev
make -s -j4 OUT="$folder"
