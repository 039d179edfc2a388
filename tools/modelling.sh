#!/usr/bin/env bash
# Tries what modelling systems reach the solver by: the Python package and its models, PuLP with its own suite, AMPL's files, and MiniZinc
# beside Gecode. Prints how many tests of each passed, and which didn't. It installs what it needs.
#   bash tools/modelling.sh
. "$(dirname "$0")/program.sh"
install_packages python3-pulp minizinc python3-venv python3-setuptools python3-wheel
room=$(mktemp -d) || exit
trap 'rm -rf "$room"' EXIT
passed=0
failed=0

# NAME COMMAND..: runs a part, whose tests Python's unittest counts, and shows its tables, and all that it says where a test fails.
part() {
    local name=$1 counts
    shift
    "$@" >"$room/log" 2>&1 </dev/null
    counts=$(awk '
        /^Ran [0-9]+ test/ { ran = $2 }
        /^FAILED/ { while (match($0, /(failures|errors)=[0-9]+/)) { bad += substr($0, RSTART + index(substr($0, RSTART), "=")); $0 = substr($0, RSTART + RLENGTH) } }
        /^OK/ { ended = 1 }
        END { if (!ended && !bad) bad = 1; print (ran > bad ? ran - bad : 0), bad + 0 }' "$room/log")
    if [ "${counts#* }" -eq 0 ]; then grep '^| ' "$room/log"; else cat "$room/log"; fi
    echo "$name: ${counts% *} of $((${counts% *} + ${counts#* }))"
    passed=$((passed + ${counts% *}))
    failed=$((failed + ${counts#* }))
}

# The package is installed as its users do it, in an environment of its own, and its commands run from there.
installed() {
    /usr/bin/python3 -m venv --system-site-packages "$room/venv" \
        && cp -R clients/python "$room/source" \
        && "$room/venv/bin/pip" install -q --no-index --no-build-isolation --no-deps "$room/source" \
        && cd "$room" \
        && venv/bin/gubnatris_ampl -v \
        && venv/bin/python -c 'import gubnatris_pulp, pulp; assert "GUBNATRIS" in pulp.listSolvers(onlyAvailable=True)' \
        && printf 'Ran 1 test\nOK\n'
}

part 'models, results and the program' python3 clients/python/test_models.py
part "PuLP's own suite, and more" /usr/bin/python3 clients/python/test_pulp.py
part "AMPL's .nl and .sol" python3 clients/ampl/test_ampl.py
part 'MiniZinc beside Gecode' python3 clients/minizinc/test_minizinc.py
part 'what the drivers take' /usr/bin/python3 clients/driver_costs.py
part 'the package, installed by pip' eval '(installed)'
echo "$passed passed, $failed failed"
[ "$failed" -eq 0 ]
