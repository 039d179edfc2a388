# shellcheck shell=bash
# Read by scripts that try the program beside packages of Debian's. Goes to the top of the repository. OS_PROGRAM names the program;
# where it isn't set, it is the one that `./os` builds, and is built first.
[ -z "${OS_PROGRAM-}" ] || OS_PROGRAM=$(realpath -- "$OS_PROGRAM") || exit
cd "$(dirname "${BASH_SOURCE[0]}")/.." || exit
if [ -z "${OS_PROGRAM-}" ]; then
    ./os session </dev/null || exit
    OS_PROGRAM=$PWD/crates/os_main/out/os_main
fi
export OS_PROGRAM PYTHONDONTWRITEBYTECODE=1
[ -x "$OS_PROGRAM" ] || { echo "$OS_PROGRAM isn't a program" >&2; exit 1; }
# shellcheck source=tools/packages.sh
. tools/packages.sh
