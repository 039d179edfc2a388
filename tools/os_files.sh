# shellcheck shell=sh disable=SC2154
# Read by ./os: the planners' files that `solve` takes besides OSiL, what it shows of them, and a hint where a file is of another kind than
# the one that should stand there.
converted= # the folder that a file is converted in

# FILE: of which kind it is, by its first element, its ending or how it begins; nothing where it is none of these.
kind_of() {
    [ -f "$1" ] && [ -r "$1" ] || return 0
    element=$(LC_ALL=C head -c 4096 "$1" | LC_ALL=C tr -d '\000' | LC_ALL=C grep -o '<[A-Za-z_][^ >/]*' | head -n 1)
    element=${element#<}
    case ${element##*:} in osil | osrl | osol | ospl) echo "${element##*:}" && return ;; esac
    case $1 in
        *.lp | *.LP) echo lp ;;
        *.mps | *.MPS) echo mps ;;
        *.nl) echo nl ;;
        *.mod) echo mathprog ;;
        *.mzn | *.fzn) echo minizinc ;;
    esac
}

# FILE KIND: where the file is of another kind than this one, a line names what it is for.
hint_on() {
    kind=$(kind_of "$1")
    case $kind in
        '' | "$2") ;;
        lp) say "$1 is in CPLEX's LP format; tools/lp_to_osil $1 NEW.osil turns it into OSiL" ;;
        mps) say "$1 is MPS; tools/mps_to_osil $1 NEW.osil turns it into OSiL, and with --free free MPS" ;;
        nl) say "$1 is AMPL's; clients/ampl/gubnatris_ampl $1 solves it" ;;
        mathprog) say "$1 is in GNU MathProg; glpsol --check --math $1 --wlp NEW.lp makes a file of it that ./os solve takes" ;;
        minizinc) say "$1 is MiniZinc's; clients/minizinc/README.md says how minizinc solves it" ;;
        osrl) say "$1 is a result (OSrL), and ${3} should stand there; tools/show_result OSIL $1 shows it" ;;
        osol) say "$1 has options (OSoL), and ${3} should stand there; options come behind --options, or --osol of call" ;;
        osil) say "$1 is an instance (OSiL), and ${3} should stand there" ;;
        ospl) say "$1 is what knock tells (OSpL), and ${3} should stand there" ;;
    esac
}

# Hints on the files that a command's words name, before anything is built for them.
hint_on_files() {
    asked=$1
    shift
    take_apart "$@"
    case $asked in
        solve) hint_on "$first" osil 'an instance (OSiL)' ;;
        check) hint_on "$first" osil 'an instance (OSiL)' && hint_on "$second" osrl 'a result (OSrL)' ;;
        call) [ -z "${osil-}" ] || hint_on "$osil" osil 'an instance (OSiL)' ;;
    esac
    [ -z "${result-}" ] || hint_on "$result" osrl 'a result (OSrL)'
    [ -z "${options-}${osol-}" ] || hint_on "${options-}${osol-}" osol 'options (OSoL)'
}

# Whether the words ask for a solve of a file that has to be converted first.
is_to_convert() {
    [ "$1" = solve ] || return 1
    shift
    take_apart "$@"
    case $(kind_of "$first") in lp | mps) return 0 ;; *) return 1 ;; esac
}

remove_converted() {
    [ -z "$converted" ] || rm -rf "$converted"
    converted=
}

# STATUS: ends so, and leaves nothing behind.
leave() {
    remove_converted
    exit "$1"
}

# READING FILE: makes an OSiL file of it in a folder of its own.
convert_file() {
    command -v python3 >/dev/null || { say "python3 isn't on the PATH, and $2 can't be turned into OSiL without it" && exit 1; }
    converted=$(mktemp -d) || { say "$(cant_write "${TMPDIR:-/tmp}")" && exit 4; }
    tool=mps_to_osil
    [ "$(kind_of "$2")" = mps ] || tool=lp_to_osil
    case $2 in -*) set -- "$1" "./$2" ;; esac
    # shellcheck disable=SC2086 # the reading's flags are words
    python3 "$here/tools/$tool" $1 "$2" "$converted/osil" || leave $?
}

# Solves a file that is converted first. At a terminal the result is shown as tools/show_result does; elsewhere, or with --osrl, it is the
# document that the program writes.
solve_converted() {
    reading='' shown=yes
    [ -t 1 ] || shown=
    shift
    for word; do
        shift
        case $word in
            --osrl) shown= ;;
            --free | --max | --glpk) reading="$reading $word" ;;
            *) set -- "$@" "$word" ;;
        esac
    done
    take_apart "$@"
    convert_file "$reading" "$first"
    for word; do
        shift
        [ "$word" != "$first" ] || word=$converted/osil
        set -- "$@" "$word"
    done
    is_built || build
    if [ -z "$shown" ]; then
        run_program solve "$@"
    else
        run_program solve "$@" >"$converted/osrl"
        [ "$status" -gt 1 ] || [ -n "$caught" ] || python3 "$here/tools/show_result" "$converted/osil" "$converted/osrl" || status=$?
    fi
}
