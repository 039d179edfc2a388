# shellcheck shell=sh disable=SC2154,SC2034
# Read by ./os: what it says of commands and statuses. All of it goes to the standard error, but for help that is asked for, the version, and
# the usage where the words are no command's, which is the program's own.

say() {
    printf 'os: %s\n' "$1" >&2
}

is_command() {
    grep -Fqx -- "command $1" "$commands"
}

# The words of a command, as a person types them.
own_words() {
    awk -v command="$1" '$1 == "command" { at = $2 } $1 == "words" && at == command { sub(/^words /, "./os "); print }' "$commands"
}

help_on_all() {
    awk '
        { line = $0; sub(/^[a-z]+ /, "", line) }
        $1 == "words" { print "./os " line }
        $1 == "does" { print "    " line }
        END { print "./os help COMMAND says what a command takes, gives and ends with." }
    ' "$commands"
}

help_on() {
    awk -v command="$1" '
        # Puts a text behind a name of eight columns, in lines of at most 80.
        function put(name, text, n, words, i, line) {
            n = split(text, words, " ")
            for (i = 1; i <= n; i++) {
                if (line != "" && length(line words[i]) > 70) { printf "%-8s %s\n", name, line; name = line = "" }
                line = line (line == "" ? "" : " ") words[i]
            }
            printf "%-8s %s\n", name, line
        }
        $1 == "command" || $1 == "status" { at = $2; before = ""; next }
        at != command { next }
        { line = $0; sub(/^[a-z]+ /, "", line) }
        $1 == "words" { print "./os " line; next }
        $1 == "does" { print "    " line; next }
        NF { put($1 == before ? "" : $1, line); before = $1 }
    ' "$commands"
}

# Whether a command's words ask what the command is, in place of running it.
asks_help() {
    for word; do
        case $word in
            --) return 1 ;;
            -h | --help) return 0 ;;
        esac
    done
    return 1
}

# What the sources are, and whether the program is built of them. The number is that of the package of the Python client.
tell_version() {
    echo "gubnatris $(sed -n 's/^version = "\(.*\)"$/\1/p' "$here/clients/python/pyproject.toml")"
    commit=$(git -C "$here" rev-parse --short=10 HEAD 2>/dev/null) || commit=
    [ -z "$commit" ] || echo "commit $commit$([ -z "$(git -C "$here" status --porcelain 2>/dev/null)" ] || echo ', with changes')"
    if is_built; then echo "program built of these sources"; else echo "program not built of these sources yet"; fi
}

# What needs no program: help and the version, on the output.
answer_at_once() {
    case $1 in
        help)
            if is_command "${2-}"; then
                help_on "$2"
            elif [ $# -lt 2 ]; then
                help_on_all
            else
                answer_no_command "$2"
            fi
            ;;
        version) tell_version ;;
        *)
            shown=$1
            shift
            asks_help "$@" || return 0
            help_on "$shown"
            ;;
    esac
    exit 0
}

# Words that begin with no command get what the program answers, which need not be built for it: the usage, and status 2; a call for help
# gets help, on the output.
answer_no_command() {
    case ${1-} in
        -h | --help)
            shift
            answer_at_once help "$@"
            ;;
    esac
    if ! sed -n 's/^usage //p' "$commands" 2>/dev/null; then
        explain 4
        exit 4
    fi
    case ${1-} in
        '') help_on_all >&2 ;;
        *) say "there is no command $1; ./os help lists those that there are" ;;
    esac
    exit 2
}

# Takes a command's words apart, as the program does: those that stand for themselves, and the texts of options. A word that stands alone
# has no text.
take_apart() {
    first='' second='' third=''
    unset options result halt osil osol ospl journal
    while [ $# -gt 0 ] && [ "$1" != -- ]; do
        case $1 in
            --safe | --osrl | --free | --max | --glpk) ;;
            --*=*) keep_option "${1%%=*}" "${1#*=}" ;;
            --*)
                keep_option "$1" "${2-}"
                [ $# -lt 2 ] || shift
                ;;
            *) keep_word "$1" ;;
        esac
        shift
    done
    [ $# -eq 0 ] || shift
    for word; do keep_word "$word"; done
}

keep_word() {
    if [ -z "$first" ]; then
        first=$1
    elif [ -z "$second" ]; then
        second=$1
    else
        third=$1
    fi
}

keep_option() {
    case $1 in
        --options) options=$2 ;;
        --result) result=$2 ;;
        --halt) halt=$2 ;;
        --osil) osil=$2 ;;
        --osol) osol=$2 ;;
        --ospl) ospl=$2 ;;
        --journal) journal=$2 ;;
    esac
}

# The first of these files that can't be read is told, with why; where each can be, the answer is no.
tell_unread() {
    for file; do
        if [ -d "$file" ]; then
            why="it is a folder"
        elif [ ! -e "$file" ]; then
            why="there is no such file"
        elif [ ! -r "$file" ]; then
            why="you have no leave to read it"
        else
            continue
        fi
        say "can't read $file: $why; name another file: $own"
        return 0
    done
    return 1
}

# Where a journal can't be opened, why is told; else the answer is no.
tell_unopened() {
    if [ -d "$1" ]; then
        why="it is a folder"
    elif [ -e "$1" ] && { [ ! -r "$1" ] || [ ! -w "$1" ]; }; then
        why="you have no leave to read and write it"
    elif [ ! -e "$1" ] && [ ! -d "$(dirname -- "$1")" ]; then
        why="its folder isn't there"
    else
        return 1
    fi
    say "can't open the journal $1: $why; name another file: $own"
}

# More than a gate stands in the file.
is_taken() {
    [ -f "$1" ] && [ -r "$1" ] && [ "$(wc -c <"$1")" -gt 1 ]
}

explain_read() {
    case $1 in
        session | serve)
            if [ -z "${journal+x}" ]; then
                say "the input couldn't be read; give it another way: ./os session < FILE"
            else
                tell_unopened "$journal" || say "the journal $journal, or the input, couldn't be read; see that no other program has $journal open"
            fi
            ;;
        compact) tell_unread "$first" || say "$first couldn't be opened or read; see that you may write it, and that no other program has it open" ;;
        check | solve)
            tell_unread "$first" ${second:+"$second"} ${options+"$options"} ${result+"$result"} || say "a file couldn't be read to its end; try again"
            ;;
        call)
            tell_unread ${osil+"$osil"} ${osol+"$osol"} ${ospl+"$ospl"} \
                || say "the connection to $second port $third broke before the whole answer came; it may have been served: see with ./os call knock $second $third"
            ;;
    esac
}

explain_write() {
    case $1 in
        call) say "the call couldn't be sent to $second port $third, or the output not be written; see that the server runs and that the output has room" ;;
        compact)
            if is_taken "$second"; then
                say "$second has something in it; name a file that isn't there: $own"
            else
                tell_unopened "$second" || say "$second couldn't be written, or $first while it was opened; see that there is room, and that no other program has them open"
            fi
            ;;
        *)
            if [ -n "${journal+x}" ]; then
                say "the output couldn't be written, or the journal $journal while it was opened; see that there is room, and that whoever reads the output is still there"
            else
                say "the output couldn't be written; see that there is room and that whoever reads it is still there"
            fi
            ;;
    esac
}

explain_damage() {
    case $1 in
        compact) journal=$first ;;
        session | serve) ;;
        *) unset journal ;;
    esac
    if [ -n "${journal+x}" ]; then
        say "the journal $journal is damaged, and it stays as it is; go on with a backup of it (docs/rules/journal.md)"
    else
        explain_other
    fi
}

explain_other() {
    say "the program ended with status $ended, which no command has; build it anew: rm $program"
}

explain_memory() {
    case $1 in
        serve) say "there was no memory for the server or for one of its connections; give fewer --servers and --workers, or end other programs" ;;
        *) say "there was no memory; end other programs, or give a smaller instance" ;;
    esac
}

explain_network() {
    case $1 in
        serve) say "can't listen at $first port $second, or take more connections; HOST must be an address of this machine, as 127.0.0.1, and PORT free" ;;
        *) say "no one listens at $second port $third; start a server there, or name another: $own" ;;
    esac
}

# What a status above 1 means for the command whose words follow, and what to do, in one line.
explain() {
    ended=$1
    shift
    [ $# -eq 0 ] || { own=$(own_words "$1") && asked=$1 && shift; }
    take_apart "$@"
    case $ended in
        2) say "these words are not those of $asked: $own (./os help $asked says more)" ;;
        3) explain_read "$asked" ;;
        4) explain_write "${asked-}" ;;
        5) explain_memory "$asked" ;;
        6) explain_network "$asked" ;;
        7) say "what $second port $third answered is no reply to a call; see that a server of these calls listens there" ;;
        8) say "the input ended inside a request; its body must have as many bytes as Content-Length says" ;;
        9) explain_damage "$asked" ;;
        137) say "the program was killed (signal 9), as the system does where memory is short; end other programs, or give a smaller instance" ;;
        *) explain_other ;;
    esac
}
