#!/bin/sh
# Runs the program with the words given. The program writes nothing on the standard error but how a search stands that a file may end;
# this script says there how far the first build is, how long a search has taken and how it stands, and behind a status above 1 what
# happened and what to do. The output and the status are the program's own. `./os help` lists the commands.
here=$(CDPATH='' cd -- "$(dirname -- "$0")" && pwd) || exit 1
crate=$here/crates/os_main
program=$crate/out/os_main
commands=$here/docs/commands.txt
child= # the process that is waited for
caught= # the signal that came
status=1 # of that process
halting= # the folder in which a file ends the search, and one has what it tells
halted= # whether it is there
asks_bound='<osol><optimization><solverOptions><solverOption name="bound" value="1"/></solverOptions></optimization></osol>'

. "$here/tools/os_words.sh"
. "$here/tools/os_build.sh"
. "$here/tools/os_files.sh"

# Ends the search of the program that runs, once and where there is one: it writes what it has then.
# shellcheck disable=SC2317 # a trap calls it
end_search() {
    [ -n "$halting" ] && [ -n "$child" ] && [ -z "$halted" ] || return 1
    touch "$halting/now" 2>/dev/null || return 1
    halted=yes
    say "the search ends with what it has; Ctrl-C once more ends the program"
}

# Hands a signal on. It goes as TERM, since what a script starts behind itself ignores INT and QUIT. The first INT ends a search at a
# terminal, and not the program.
# shellcheck disable=SC2317 # a trap calls it
hand_on() {
    [ "$1" != INT ] || ! end_search || return 0
    caught=$1
    [ -z "$child" ] || kill -s TERM "$child" 2>/dev/null
}

# Waits for the child, through signals that come meanwhile, and keeps its status. One that came before there was a child ends it too.
await() {
    [ -z "$caught" ] || kill -s TERM "$child" 2>/dev/null
    wait "$child" 2>/dev/null
    status=$?
    while [ -n "$caught$halted" ] && kill -0 "$child" 2>/dev/null; do
        wait "$child" 2>/dev/null
        status=$?
    done
    child=
}

# Ends as whoever is ended by this signal.
end_by() {
    remove_converted
    trap - "$1" 2>/dev/null
    kill -s "$1" $$
    exit "$status"
}

# How the search stands by what it told last: the value of its best point and the bound, as decimals, where it has them.
standing() {
    [ -z "$halting" ] || awk '
        function decimal(ratio, parts) { split(ratio, parts, "/"); return sprintf("%.6g", parts[1] / parts[2]) }
        $0 ~ /^(-|-?[0-9]+\/[0-9]+) (-|-?[0-9]+\/[0-9]+)$/ { best = $1; bound = $2 }
        END {
            if (best ~ /[0-9]/) printf ", best %s", decimal(best)
            if (bound ~ /[0-9]/) printf ", bound %s", decimal(bound)
            if (best bound ~ /[0-9]/) printf "\033[K"
        }
    ' "$halting/told"
}

# Once two seconds have gone, shows how long a search takes, and how it stands where it tells that. The cursor goes back to where the
# output is to begin, and what is then left behind the output is cleared. It ends when it is told to, or when the script is gone.
show_seconds() {
    shown=
    trap 'kill "$!" 2>/dev/null; [ -z "$shown" ] || printf "\033[K" >&2; exit' TERM
    sleep 2 &
    wait "$!"
    seconds=2
    while kill -0 $$ 2>/dev/null; do
        printf 'os: %s s%s\r' "$seconds" "$(standing 2>/dev/null)" >&2
        shown=yes
        sleep 1 &
        wait "$!"
        seconds=$((seconds + 1))
    done
}

# Whether the words ask for a search, here or at a server, and a terminal is there to show its time.
is_watched() {
    [ -t 2 ] && [ "${TERM:-dumb}" != dumb ] || return 1
    case "$* " in
        'solve '* | 'generate '* | 'call '*' solve '* | 'call solve '*) return 0 ;;
        *) return 1 ;;
    esac
}

# Makes room for the file that ends a solve, unless the words name one themselves; and for options that ask for a bound, where they name none.
make_halting() {
    [ "$1" = solve ] || return 0
    shift
    take_apart "$@"
    [ -z "${halt+x}" ] || return 0
    halting=$(mktemp -d 2>/dev/null) || { halting='' && return 0; }
    [ -n "${options+x}" ] || echo "$asks_bound" >"$halting/osol"
}

# Starts the program, with the script's own input. Behind a script the input is none unless it is handed on by another number; where
# there is none, none is made up.
start_program() {
    if (: <&0) 2>/dev/null; then
        exec 3<&0
        "$program" "$@" <&3 3<&- &
    else
        "$program" "$@" <&- &
    fi
    child=$!
}

# Runs the program, and keeps its status.
run_program() {
    clock=
    if is_watched "$@"; then
        make_halting "$@"
        show_seconds >/dev/null &
        clock=$!
    fi
    if [ -n "$halting" ]; then
        shift
        [ ! -e "$halting/osol" ] || set -- --options "$halting/osol" "$@"
        start_program solve --halt "$halting/now" "$@" 2>"$halting/told"
    else
        start_program "$@"
    fi
    await
    if [ -n "$clock" ]; then
        kill "$clock" 2>/dev/null
        wait "$clock" 2>/dev/null
    fi
    if [ -n "$halting" ]; then
        # What isn't how the search stood is what ended the program.
        grep -Evx -e '(-|-?[0-9]+/[0-9]+) (-|-?[0-9]+/[0-9]+)' "$halting/told" >&2
        rm -rf "$halting"
    fi
    halting=
}

is_command "${1-}" || answer_no_command "$@"
answer_at_once "$@"
for signal in HUP INT QUIT TERM; do
    # shellcheck disable=SC2064 # the name is to stand in the trap
    trap "hand_on $signal" "$signal"
done
if [ "$1" = try ]; then
    shift
    begin_try "$@"
fi
if is_to_convert "$@"; then
    solve_converted "$@"
else
    hint_on_files "$@"
    is_built || build
    run_program "$@"
fi
[ -z "$caught" ] || end_by "$caught"
[ "$status" -le 1 ] || explain "$status" "$@"
[ "$status" -le 128 ] || end_by "$(kill -l "$status")"
leave "$status"
