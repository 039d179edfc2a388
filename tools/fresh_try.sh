#!/usr/bin/env bash
# A first answer before the proofs, as somebody gets it who has the toolchain: a fresh clone of the last commit, `./os try solve` there, and
# `./os try check` of what it wrote. It prints the seconds, which `bench/aims.sh` judges on a quiet machine.
#   bash tools/fresh_try.sh
cd "$(dirname "$0")/.." || exit 2
command -v rt >/dev/null || { echo 'fresh_try: the toolchain is wanted, its command rt on the PATH' >&2; exit 2; }
room=$(mktemp -d) || exit 2
trap 'rm -rf "$room"' EXIT
trap 'exit 130' HUP INT TERM
passed=0
failed=0

# WHAT FOUND WANTED: counts it, and says where they differ.
expect() {
    if [ "$2" = "$3" ]; then
        passed=$((passed + 1))
    else
        failed=$((failed + 1))
        printf '%s\n  found:  %s\n  wanted: %s\n' "$1" "$2" "$3"
    fi
}

# WORDS: tries them in the clone, and keeps what is written and said.
tried() {
    local begun=$SECONDS
    ./os try "$@" >"$room/out" 2>"$room/err"
    expect "the status of try $1" $? 0
    expect "the first line of try $1" "$(sed -n '1s/^\(os: nothing of this run is proved\): .*/\1/p' "$room/err")" 'os: nothing of this run is proved'
    echo "./os try $1: $((SECONDS - begun)) s"
}

git clone -q . "$room/clone" && cd "$room/clone" || exit 2
tried solve examples/knapsack.osil
expect 'its status' "$(grep -o '<solution><status type="[a-zA-Z]*"' "$room/out")" '<solution><status type="optimal"'
expect 'its value' "$(grep -o 'os_cert.value"><item>[0-9]*' "$room/out")" 'os_cert.value"><item>30'
cp "$room/out" "$room/result"
tried check examples/knapsack.osil "$room/result"
expect 'what the check says' "$(cat "$room/out")" 'accepted optimal'
expect 'nothing is kept' "$(git status --porcelain --ignored)" ''
echo "$passed passed, $failed failed"
[ "$failed" -eq 0 ]
