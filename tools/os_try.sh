# shellcheck shell=sh disable=SC2154,SC2034,SC2317 # what it sets and says anew, ./os uses
# Read by ./os: runs the sources of the program without a proof, by the toolchain's `rt try`, which compiles them anew each time and keeps
# nothing of it.

# Why a command can't be tried, if it can't: it would leave a file, or says something before it has ended.
why_not_tried() {
    case $asked in
        serve) echo "serve goes on without an end, and what is tried says nothing before it has ended" ;;
        compact) echo "compact writes a file, and what is tried leaves none" ;;
        solve) [ -z "${halt+x}" ] || echo "what is tried sees the files that are there when it begins, and none that is to end it" ;;
        *) [ -z "${journal+x}" ] || echo "a journal is a file, and what is tried leaves none" ;;
    esac
}

# Says what is amiss with the words before minutes are spent on them.
check_words() {
    case $asked in try | help | version) asked= ;; esac
    if ! is_command "$asked"; then
        say "name a command to be tried: $own (./os help try says which)"
        exit 2
    fi
    take_apart "$@"
    why=$(why_not_tried)
    if [ -n "$why" ]; then
        say "not tried: $why; ./os $asked proves the program, and runs it then"
        exit 2
    fi
    own=$(own_words "$asked")
    case $asked in
        solve | check) set -- ${first:+"$first"} ${second:+"$second"} ${options+"$options"} ${result+"$result"} ;;
        call) set -- ${osil+"$osil"} ${osol+"$osol"} ${ospl+"$ospl"} ;;
        *) return 0 ;;
    esac
    ! tell_unread "$@" || exit 3
}

# Keeps the path of a file that the run gets as a copy, whose name there is `text`.
hand_over() {
    text=$1
    [ -f "$1" ] || return 0
    given=$((given + 1))
    case $1 in
        /*) eval "given_$given=\$1" ;;
        *) eval "given_$given=\$PWD/\$1" ;;
    esac
    text=file$given
}

# WORD: what the run gets in its place. A file is what an option names, and each word of solve and check that stands for itself.
place() {
    text=$1
    case $alone$1 in
        --) alone=yes ;;
        --*=*)
            hand_over "${1#*=}"
            text=${1%%=*}=$text
            ;;
        --*)
            option=$1
            return
            ;;
        *)
            case $asked$option in
                solve* | check* | *--*) hand_over "$1" ;;
            esac
            ;;
    esac
    option=
}

# At a terminal shows in place how long it takes.
show_try() {
    [ -t 2 ] && [ "${TERM:-dumb}" != dumb ] || return 0
    while [ -z "$caught" ] && kill -0 "$child" 2>/dev/null; do
        printf 'os: %s s\r' $(($(date +%s) - begun)) >&2
        sleep 1
    done
    printf '\033[K' >&2
}

# Runs the words, with the input where it is a session's, for an hour at most, and keeps the program's status, or 1 where rt has another.
run_tried() {
    asked=$1 given=0 alone='' option=''
    shift
    for word; do
        place "$word"
        shift
        set -- "$@" "$text"
    done
    set -- -- "$asked" "$@"
    while [ "$given" -gt 0 ]; do
        eval "set -- --data \"file$given=\$given_$given\" \"\$@\""
        given=$((given - 1))
    done
    told=$(mktemp) || give_up "$(cant_write "${TMPDIR:-/tmp}")"
    [ "$asked" = session ] || exec </dev/null
    exec 3<&0
    (cd "$crate" && exec rt try --seconds 3600 "$@") <&3 3<&- 2>"$told" &
    child=$!
    exec 3<&-
    begun=$(date +%s)
    show_try
    await
    tell_end
}

# Where the program didn't end by itself, says what rt says of it.
tell_end() {
    if [ -z "$caught" ] && ! sed -n '$p' "$told" | grep -q '^run=ended status=[0-9]* '; then
        sed 's/^/os: /' "$told" >&2
        say "the run came to no end of its own: the toolchain says above why"
        status=1
    fi
    rm -f "$told"
}

# From here on what runs is the sources, with nothing proved; says so, and how long the proof takes.
begin_try() {
    asked=${1-} own=$(own_words try)
    [ $# -eq 0 ] || shift
    check_words "$@"
    command -v rt >/dev/null || give_up "the toolchain's command rt isn't on the PATH; README.md names the toolchain"
    say "nothing of this run is proved: the sources are compiled, in about 2 min, and run once; ./os $asked proves them, in about $(minutes_of_proof) min, and keeps the program"
    is_built() { :; }
    run_program() { run_tried "$@"; }
}
