#!/bin/sh
# Tries each line that ./os says, against the words that it is to say. A small program stands in for the one that is built, and another
# for the toolchain's rt, so this proves nothing and takes seconds. Prints what differs, and how many were as expected.
#   sh tools/os_lines.sh
top=$(CDPATH='' cd -- "$(dirname -- "$0")/.." && pwd) || exit 2
room=$(mktemp -d) || exit 2
trap 'chmod -R u+w "$room"; rm -rf "$room"' EXIT
cd "$room" || exit 2
usage='usage: os_app session | solve | check | serve | call | compact | generate'
tried=0
failed=0

# A copy of what ./os reads, with sources that are nearly empty.
mkdir -p tools docs bin
cp "$top/os" "$top/crates.txt" "$top/HANDLES" .
cp "$top/tools/os_words.sh" "$top/tools/os_build.sh" "$top/tools/os_try.sh" tools
cp "$top/tools/os_files.sh" "$top"/tools/*_to_osil "$top/tools/show_result" "$top"/tools/*.py tools
mkdir clients && cp -R "$top/clients/python" clients
cp "$top/docs/commands.txt" "$top/docs/WORKING.md" docs
# shellcheck disable=SC2013 # a name has no space
for name in $(sed -n 's/^\([a-z][a-z0-9_]*\):.*/\1/p' crates.txt); do
    mkdir -p "crates/$name/src"
    echo "// $name" >"crates/$name/src/lib.rt"
done

# What stands in for the program: it writes a text, waits, for so many tenths of a second for a file that is to end it too, and ends with a status.
make_stub() {
    mkdir -p crates/os_main/out
    cat >crates/os_main/out/os_main <<'STUB'
#!/bin/sh
echo $$ >"$STUB_PID"
[ -z "${STUB_SEEN-}" ] || echo "$*" >"$STUB_SEEN"
[ -z "${STUB_TELLS-}" ] || echo "$STUB_TELLS" >&2
[ -z "${STUB_HANGS-}" ] || exec sleep 30
for _ in $(seq "${STUB_HALTS:-0}"); do
    [ ! -e "${3-}" ] || break
    sleep 0.1
done
[ "${1-}" != session ] || cat
sleep "${STUB_SECONDS:-0}"
printf '%s' "${STUB_TEXT-}"
[ -z "${STUB_SIGNAL-}" ] || kill -s "$STUB_SIGNAL" $$
exit "${STUB_STATUS:-0}"
STUB
    chmod +x crates/os_main/out/os_main
}
export STUB_PID="$room/pid"

# WHAT FOUND WANTED: counts it, and says where they differ.
expect() {
    tried=$((tried + 1))
    [ "$2" = "$3" ] && return
    failed=$((failed + 1))
    printf '%s\n  found:  %s\n  wanted: %s\n' "$1" "$2" "$3"
}

# STATUS LINE WORDS..: where the program writes a text and ends with this status, ./os writes the same and ends so, and says LINE.
says() {
    wanted=$1 line=$2
    shift 2
    STUB_TEXT=text STUB_STATUS=$wanted ./os "$@" >out 2>err </dev/null
    expect "status of: $*" $? "$wanted"
    expect "output of: $*" "$(cat out)" text
    expect "line of: $*" "$(cat err)" "$line"
}

# LINE WORDS..: words that begin with no command get the usage and status 2, whether the program is built or not.
says_no_command() {
    line=$1
    shift
    ./os "$@" >out 2>err </dev/null
    expect "status of: $*" $? 2
    expect "output of: $*" "$(cat out)" "$usage"
    expect "first line of: $*" "$(head -n 1 err)" "$line"
}

# LINE WORDS..: a call for help gets it on the output, and status 0, whether the program is built or not.
says_help() {
    line=$1
    shift
    ./os "$@" >out 2>err </dev/null
    expect "status of: $*" $? 0
    expect "first line of: $*" "$(head -n 1 out)" "$line"
    expect "lines beside: $*" "$(cat err)" ''
}

# Runs a command line at a terminal of its own, whose keys are this function's input, and prints what was seen there.
at_terminal() {
    TERM=xterm script -qec "$1" /dev/null | tr -d '\r'
}

# FILE: Ctrl-C, once a program runs that has written its number there; half a minute is waited for it at most.
press_ctrl_c() {
    for _ in $(seq 300); do
        [ ! -s "$1" ] || break
        sleep 0.1
    done
    printf '\003'
    sleep 1
}

# PATTERN TEXT: whether the text has the pattern.
has() {
    case $2 in
        *"$1"*) echo yes ;;
        *) echo "no: $2" ;;
    esac
}

expect "the usage is the program's" "$(sed -n 's/^const USAGE.*b"\(.*\)\\n";$/\1/p' "$top"/crates/command_line/src/*.rt)" "$usage"
expect "the README's tables" "$(sh "$top/tools/commands_table.sh" --check)" ''

# ---- completion

sh "$top/tools/completions.sh" bash >complete.bash
sh "$top/tools/completions.sh" zsh >complete.zsh
# WORDS..: what bash completes the last of these words to.
completed() {
    bash -c '. "$0" && COMP_WORDS=("$@") COMP_CWORD=$(($# - 1)) && _gubnatris && echo "${COMPREPLY[*]}"' "$room/complete.bash" "$@"
}
expect 'completion of a command' "$(completed ./os se)" 'serve session'
expect 'completion of a flag' "$(completed ./os solve a.lp --s)" '--seconds --safe'
expect 'completion of a flag that stands alone' "$(completed ./os solve --o)" '--options --osrl'
expect 'completion of a call' "$(completed ./os call k)" 'knock kill'
expect 'completion of a file' "$(completed ./os check crates.t)" 'crates.txt'
expect 'completion of help' "$(completed ./os help g)" 'generate'
if command -v zsh >/dev/null; then
    told=$(zsh -fc 'words=(os solve --s) CURRENT=3 PREFIX=--s; compadd() { echo "$@" }; _files() { echo files }; . "$1"' zsh "$room/complete.zsh" 2>&1)
    expect 'what zsh completes' "$told" '-- --options --result --seconds --halt --safe --free --max --glpk --osrl'
fi

# ---- before the program is built

all='./os solve OSIL [--options OSOL] [--result OSRL] [--seconds N] [--halt FILE] [--safe]'
says_no_command "$all"
says_help "$all" help
says_help "$all" --help
says_help "$all" -h
says_help './os check OSIL OSRL' help check
says_help './os check OSIL OSRL' --help check
says_help './os check OSIL OSRL' check --help
says_help './os check OSIL OSRL' check there -h
says_no_command 'os: there is no command fly; ./os help lists those that there are' help fly
says_no_command 'os: there is no command fly; ./os help lists those that there are' fly away
says_no_command 'os: there is no command -x; ./os help lists those that there are' -x
# shellcheck disable=SC2013 # a name has no space
for command in $(sed -n 's/^command //p' docs/commands.txt); do
    ./os help "$command" >out 2>err
    for part in takes gives ends example; do
        expect "help $command has $part" "$(grep -c "^$part " out)" 1
    done
done
if [ -e /dev/full ]; then
    ./os fly >/dev/full 2>err
    expect 'status of a usage that no one takes' $? 4
    expect 'line of a usage that no one takes' "$(cat err)" "os: the output couldn't be written; see that there is room and that whoever reads it is still there"
fi
./os version >out 2>err
expect 'status of version' $? 0
expect 'what version says' "$(sed 's/ [0-9.]*$/ N/' out | tr '\n' ' '; cat err)" 'gubnatris N program not built of these sources yet '
# FILE TEXT HINT WORDS..: of a file with this text, named in these words as FILE, this is hinted before anything is built.
hints() {
    file=$1 line=$3
    printf '%s' "$2" >"$file"
    shift 3
    PATH=/bin:/usr/bin ./os "$@" >out 2>err
    expect "hint of: $*" "$(sed '$d' err)" "${line:+os: $file $line}"
}
hints a.lp 'max' "is in CPLEX's LP format; tools/lp_to_osil a.lp NEW.osil turns it into OSiL" check a.lp r.osrl
hints a.mps 'NAME' 'is MPS; tools/mps_to_osil a.mps NEW.osil turns it into OSiL, and with --free free MPS' call solve a 80 --osil a.mps
hints a.nl 'g3 1 1 0' "is AMPL's; clients/ampl/gubnatris_ampl a.nl solves it" solve a.nl
hints a.mod 'var x;' 'is in GNU MathProg; glpsol --check --math a.mod --wlp NEW.lp makes a file of it that ./os solve takes' solve a.mod
hints a.mzn 'var int: x;' "is MiniZinc's; clients/minizinc/README.md says how minizinc solves it" solve a.mzn --safe
hints r.osrl '<?xml version="1.0"?><x:osrl xmlns:x="y">' 'is a result (OSrL), and an instance (OSiL) should stand there; tools/show_result OSIL r.osrl shows it' solve r.osrl
hints o.osol '<osol/>' 'has options (OSoL), and an instance (OSiL) should stand there; options come behind --options, or --osol of call' solve o.osol
hints i.osil '<osil><a/>' 'is an instance (OSiL), and options (OSoL) should stand there' solve there --options i.osil
hints i.osil '<osil><a/>' 'is an instance (OSiL), and a result (OSrL) should stand there' check there i.osil
hints other 'anything' '' solve other
PATH=/bin:/usr/bin ./os generate 1 >out 2>err
expect 'status without rt' $? 1
expect 'line without rt' "$(cat out err)" "os: not built: the toolchain's command rt isn't on the PATH; README.md names the toolchain"

# ---- what is tried without a proof, and the first build

# What stands in for rt tells of each crate of its folder that it is proved, or kept where RT_KEPT has its name. Its help is RT_HELP. Of a
# try it keeps the words, writes its input behind RT_TEXT, and ends as RT_TRIED says.
cat >bin/rt <<'RT'
#!/bin/sh
[ "$*" != help ] || { echo "${RT_HELP-}" >&2 && exit; }
if [ "$1" = try ]; then
    echo "$*" >"$RT_SEEN"
    echo $$ >"$RT_PID"
    [ -z "${RT_STOPS-}" ] || exec sleep 30
    printf '%s' "${RT_TEXT-}" && cat
    printf 'checked: ended\n%s\n' "${RT_TRIED:-run=ended status=0 runners=1 proved=no}" >&2
    exit "${RT_STATUS:-0}"
fi
[ "$*" = ci ] || exit 9
find . -name '*.edit' >"$RT_LEFT"
[ -z "${RT_SECONDS-}" ] || sleep "$RT_SECONDS"
for listed in $(sed 's/[ :].*//' crates.txt); do
    if [ "$listed" = fraction ] && [ -n "${RT_STOPS-}" ]; then
        echo $$ >"$RT_PID"
        exec sleep 30
    fi
    case " ${RT_KEPT-} " in
        *" $listed "*) echo "rt: $listed is kept: an earlier run on this machine proved the same files over the same libraries" ;;
        *) echo "== $listed" && echo "rt: $listed proved" && cat "crates/$listed/src/lib.rt" >>"$RT_SEEN" ;;
    esac
    [ "$listed" != os_app ] || sleep 2
done
[ -z "${RT_FAILS-}" ] || exit 1
mkdir -p crates/os_main/out
cp "$RT_STUB" crates/os_main/out/os_main
RT
chmod +x bin/rt
make_stub
mv crates/os_main/out/os_main bin/stub
export PATH="$room/bin:$PATH" RT_PID="$room/rt_pid" RT_STUB="$room/bin/stub" RT_SEEN="$room/seen" RT_LEFT="$room/left" TMPDIR="$room/rooms"
mkdir "$TMPDIR"
count=$(sh -c 'here=. crate=. program=. && . tools/os_build.sh && lines' | wc -l)
mkdir crates/os_io/must-fail
echo 'file: src/lib.rt' >crates/os_io/must-fail/one.edit

# WORDS LINE COMMAND..: a try of the command hands these words to rt, writes what it writes, and says LINE behind the first one.
tries() {
    handed=$1 line=$2
    shift 2
    RT_TEXT=text ./os try "$@" >out 2>err <given
    expect "status of try: $*" $? "${RT_STATUS:-0}"
    expect "output of try: $*" "$(cat out)" "${OUT:-text}"
    expect "words of try: $*" "$(cat seen)" "try --seconds 3600 $handed"
    expect "first line of try: $*" "$(sed -n '1s/ about [0-9]* min, and keeps/ about N min, and keeps/p' err)" "os: nothing of this run is proved: the sources are compiled, in about 2 min, and run once; ./os $1 proves them, in about N min, and keeps the program"
    expect "other lines of try: $*" "$(sed 1d err)" "$line"
}

# LINE COMMAND..: these words can't be tried.
cant_try() {
    line=$1
    shift
    ./os try "$@" >out 2>err
    expect "status of try: $*" $? 2
    expect "lines of try: $*" "$(cat out err)" "$line"
}

echo it >there && echo few >'few words' && printf ' and input' >given
tries "--data file1=$room/there -- solve file1" '' solve there
tries "--data file1=$room/there --data file2=$room/few words -- solve file1 --options file2 --safe" '' solve there --options 'few words' --safe
tries "--data file1=$room/few words --data file2=$room/there -- solve --options=file1 -- file2" '' solve "--options=few words" -- there
tries "--data file1=$room/there --data file2=$room/there -- check file1 file2" '' check there "$room/there"
tries '-- generate 5' '' generate 5
tries "--data file1=$room/there -- call there a 80 --osol file1" '' call there a 80 --osol there
OUT='text and input' tries '-- session' '' session
RT_STATUS=2 RT_TRIED='run=ended status=2 proved=no' tries '-- generate there' "os: these words are not those of generate: ./os generate N (./os help generate says more)" generate there
./os try solve nofile.osil >out 2>err
expect 'status of a try without its file' $? 3
expect 'line of a try without its file' "$(cat out err)" "os: can't read nofile.osil: there is no such file; name another file: ./os solve OSIL [--options OSOL] [--result OSRL] [--seconds N] [--halt FILE] [--safe]"
cant_try 'os: not tried: what is tried sees the files that are there when it begins, and none that is to end it; ./os solve proves the program, and runs it then' solve there --halt now
cant_try 'os: name a command to be tried: ./os try COMMAND .. (./os help try says which)'
cant_try 'os: name a command to be tried: ./os try COMMAND .. (./os help try says which)' try
cant_try 'os: name a command to be tried: ./os try COMMAND .. (./os help try says which)' fly
cant_try 'os: name a command to be tried: ./os try COMMAND .. (./os help try says which)' version
cant_try 'os: not tried: serve goes on without an end, and what is tried says nothing before it has ended; ./os serve proves the program, and runs it then' serve a 80
cant_try 'os: not tried: compact writes a file, and what is tried leaves none; ./os compact proves the program, and runs it then' compact a b
cant_try 'os: not tried: a journal is a file, and what is tried leaves none; ./os session proves the program, and runs it then' session --journal=a
RT_STATUS=4 RT_TRIED='run=fault proved=no' ./os try generate 1 >out 2>err
expect 'status of a try that stops at a fault' $? 1
expect 'lines of a try that stops at a fault' "$(sed 1d err)" "os: checked: ended
os: run=fault proved=no
os: the run came to no end of its own: the toolchain says above why"
RT_STOPS=yes ./os try generate 1 >out 2>err &
for _ in $(seq 300); do
    [ ! -s rt_pid ] || break
    sleep 0.1
done
kill -TERM $!
wait $! 2>/dev/null
expect 'status of a try that is interrupted' $? 143
kill -0 "$(cat rt_pid)" 2>/dev/null
expect 'an interrupted try leaves nothing behind' $? 1
expect 'nor any file' "$(ls "$TMPDIR")" ''
expect 'a try builds nothing' "$(ls crates/os_main/out 2>/dev/null)" ''
rm rt_pid seen

RT_FAILS=yes ./os generate 1 >out 2>err
expect 'status of a build that fails' $? 1
expect 'first line of a first build' "$(sed -n '1s/ about [0-9]* min/ about N min/p' err)" 'os: the program is proved and built first, once, in about N min; ./os try COMMAND .. runs a command unproved in about 2'
expect 'output of a build that fails' "$(cat out)" ''
expect 'line of a build that fails' "$(tail -n 1 err)" "os: not built: $room/crates/os_main/out/crates.log says why"
rm -rf crates/os_main/out

RT_HELP='rt ci [--anew]' RT_STOPS=yes ./os generate 1 >out 2>err &
for _ in $(seq 300); do
    [ ! -s rt_pid ] || break
    sleep 0.1
done
kill -TERM $!
wait $! 2>/dev/null
expect 'status of a build that is interrupted' $? 143
expect 'line of a build that is interrupted' "$(tail -n 1 err)" 'os: the build was interrupted; ./os goes on where it was'
kill -0 "$(cat rt_pid)" 2>/dev/null
expect 'an interrupted build leaves nothing behind' $? 1

rm -f rt_pid
seen=$(press_ctrl_c rt_pid | at_terminal 'trap : INT; RT_STOPS=yes ./os generate 1; echo status $?')
expect 'status of a build behind Ctrl-C' "$(has 'status 130' "$seen")" yes
expect 'line of a build behind Ctrl-C' "$(has 'os: the build was interrupted; ./os begins it anew' "$seen")" yes
kill -0 "$(cat rt_pid)" 2>/dev/null
expect 'Ctrl-C leaves nothing behind' $? 1

mv crates/os_main/out crates/os_main/aside
: >crates/os_main/out
./os generate 1 >out 2>err
expect 'status where nothing can be written' $? 1
expect 'line where nothing can be written' "$(cat out err)" "os: not built: can't write to $room/crates/os_main/out; see that there is space, and that you may write there"
rm crates/os_main/out
mv crates/os_main/aside crates/os_main/out
TMPDIR=$room/none ./os generate 1 >out 2>err
expect 'status where no room can be made' $? 1
expect 'line where no room can be made' "$(cat out err | tail -n 1)" "os: not built: can't write to $room/none; see that there is space, and that you may write there"

: >seen
echo '// changed' >>crates/os_io/src/lib.rt
STUB_TEXT=text ./os generate 1 >out 2>err
expect 'status behind a build' $? 0
expect 'output behind a build' "$(cat out)" text
expect 'what was changed is proved' "$(grep -c '^// changed' seen)" 1
expect 'a crate that the program needs is proved' "$(grep -c '^// os_app$' seen)" 1
expect 'no other crate is proved' "$(grep -c '^// try_runs$' seen)" 0
expect 'no edits are tried' "$(cat left)" ''
# shellcheck disable=SC2012 # no other names are there
expect 'what a build makes' "$(ls crates/os_main/out | tr '\n' ' ')" 'crates.log lock os_main '
expect 'first line of a build' "$(sed -n '2s/ about .*//p' err | sed 's/^os: [0-9]* /os: N /')" "os: N of $count crates proved, 0 min gone,"
expect 'last lines of a build' "$(sed 's/about [0-9]* min/about N min/' err | tail -n 2)" "os: $count of $count crates proved, 0 min gone, about N min left
os: built in 0 min"
./os generate 1 >out 2>err
expect 'nothing is built twice' "$(cat err)" ''

echo '// changed' >>crates/os_io/src/lib.rt
RT_KEPT=$(sed -n 's/^\([a-z][a-z0-9_]*\):.*/\1/p' crates.txt | grep -v os_main | tr '\n' ' ') ./os generate 1 >out 2>err
expect 'kept crates are counted' "$(tail -n 2 err | head -n 1)" "os: $count of $count crates proved, 0 min gone, about 0 min left"

echo '// changed' >>crates/os_io/src/lib.rt
OS_TELL_SECONDS=1 RT_SECONDS=5 ./os generate 1 >out 2>err
expect 'lines of a build in which time goes' "$(sed -n 's/^os: 0 of [0-9]* crates proved, 0 min gone.*/time/p' err | sort -u)" time
expect 'how often time is told' "$([ "$(grep -c '^os: 0 of' err)" -ge 3 ] && echo often)" often

echo '// changed' >>crates/os_io/src/lib.rt
flock crates/os_main/out/lock sleep 6 &
sleep 1
./os generate 1 >out 2>err
expect 'line of a second build' "$(head -n 1 err)" 'os: another ./os builds the program; waiting for it'
expect 'last line of a second build' "$(tail -n 1 err)" 'os: built in 0 min'

echo '// changed' >>crates/os_io/src/lib.rt
seen=$(at_terminal './os generate 1' </dev/null)
expect 'a build at a terminal' "$(has "os: $count of $count crates proved, 0 min gone, about 0 min left" "$seen")" yes
expect 'the end of a build at a terminal' "$(has 'os: built in 0 min' "$seen")" yes
expect 'nothing is left of the rooms' "$(ls "$TMPDIR")" ''
unset TMPDIR

# ---- statuses

make_stub
mkdir folder
says 0 '' solve there
says 0 '' solve there --safe
says 0 '' solve there --seconds 60 --safe
says 1 '' solve there
says 2 'os: these words are not those of solve: ./os solve OSIL [--options OSOL] [--result OSRL] [--seconds N] [--halt FILE] [--safe] (./os help solve says more)' solve there there
says 2 'os: these words are not those of solve: ./os solve OSIL [--options OSOL] [--result OSRL] [--seconds N] [--halt FILE] [--safe] (./os help solve says more)' solve there --safe=1
says 2 'os: these words are not those of generate: ./os generate N (./os help generate says more)' generate 1001
solve='name another file: ./os solve OSIL [--options OSOL] [--result OSRL] [--seconds N] [--halt FILE] [--safe]'
says 3 "os: can't read nofile.osil: there is no such file; $solve" solve nofile.osil
says 3 "os: can't read nofile.osil: there is no such file; $solve" solve --safe nofile.osil
says 3 "os: can't read no.osol: there is no such file; $solve" solve there --safe --options no.osol
says 3 "os: can't read --safe: there is no such file; $solve" solve -- --safe
says 3 "os: can't read folder: it is a folder; $solve" solve --options folder there
says 3 "os: can't read no.osol: there is no such file; $solve" solve there --options=no.osol
says 3 "os: can't read --options: there is no such file; $solve" solve -- --options
says 3 "os: a file couldn't be read to its end; try again" solve there
says 3 "os: can't read no.osrl: there is no such file; name another file: ./os check OSIL OSRL" check there no.osrl
says 3 "os: a file couldn't be read to its end; try again" check there there
says 3 "os: the input couldn't be read; give it another way: ./os session < FILE" session
call='./os call NAME HOST PORT [--osil FILE] [--osol FILE] [--ospl FILE]'
says 3 "os: can't read no.osol: there is no such file; name another file: $call" call solve a 80 --osol no.osol --osil there
says 3 "os: the connection to a port 80 broke before the whole answer came; it may have been served: see with ./os call knock a 80" call solve a 80 --osil there
chmod 755 . && echo it >closed && chmod 0 closed
as_other=''
[ "$(id -u)" -ne 0 ] || as_other='setpriv --reuid=65534 --regid=65534 --clear-groups'
STUB_PID=/dev/null STUB_STATUS=3 $as_other ./os solve closed >out 2>err
expect 'line of a file that may not be read' "$(cat err)" "os: can't read closed: you have no leave to read it; $solve"
says 3 "os: can't read nofile.osil: there is no such file; name another file: ./os compact OLD NEW" compact nofile.osil new
says 3 "os: there couldn't be opened or read; see that you may write it, and that no other program has it open" compact there new
says 3 "os: can't open the journal folder: it is a folder; name another file: ./os session [--journal FILE]" session --journal folder
says 3 "os: can't open the journal no/journal: its folder isn't there; name another file: ./os session [--journal FILE]" session --journal=no/journal
says 3 "os: the journal there, or the input, couldn't be read; see that no other program has there open" serve a 80 --journal there
says 4 "os: the output couldn't be written; see that there is room and that whoever reads it is still there" solve there
says 4 "os: the output couldn't be written, or the journal there while it was opened; see that there is room, and that whoever reads the output is still there" session --journal there
says 4 "os: there has something in it; name a file that isn't there: ./os compact OLD NEW" compact old there
says 4 "os: new couldn't be written, or there while it was opened; see that there is room, and that no other program has them open" compact there new
says 4 "os: can't open the journal folder: it is a folder; name another file: ./os compact OLD NEW" compact there folder
says 4 "os: the call couldn't be sent to a port 80, or the output not be written; see that the server runs and that the output has room" call knock a 80
says 5 'os: there was no memory; end other programs, or give a smaller instance' solve there
says 5 'os: there was no memory for the server or for one of its connections; give fewer --servers and --workers, or end other programs' serve a 80
says 6 "os: can't listen at nohost port 8080, or take more connections; HOST must be an address of this machine, as 127.0.0.1, and PORT free" serve --workers 1 nohost 8080
says 6 "os: no one listens at a port 80; start a server there, or name another: $call" call --osol=there knock a 80
says 7 'os: what a port 80 answered is no reply to a call; see that a server of these calls listens there' call knock a 80
says 8 'os: the input ended inside a request; its body must have as many bytes as Content-Length says' session
says 5 'os: there was no memory; end other programs, or give a smaller instance' compact there new
says 9 'os: the journal there is damaged, and it stays as it is; go on with a backup of it (docs/rules/journal.md)' compact there new
says 9 'os: the journal there is damaged, and it stays as it is; go on with a backup of it (docs/rules/journal.md)' serve --journal there a 80
says 2 'os: these words are not those of compact: ./os compact OLD NEW (./os help compact says more)' compact there
says 0 '' compact there new
says 9 "os: the program ended with status 9, which no command has; build it anew: rm $room/crates/os_main/out/os_main" solve there
STUB_SIGNAL=KILL ./os solve there >out 2>err &
wait $! 2>/dev/null
expect 'status of a program that was killed' $? 137
expect 'line of a program that was killed' "$(cat err)" 'os: the program was killed (signal 9), as the system does where memory is short; end other programs, or give a smaller instance'

# ---- planners' files

diet="$top/examples/diet.lp"
STUB_TEXT=$(cat "$top/examples/diet.osrl") ./os solve "$diet" >out 2>err
expect 'status of a converted file' $? 0
expect 'output of a converted file' "$(cat out err)" "$(cat "$top/examples/diet.osrl")"
seen=$(STUB_TEXT=$(cat "$top/examples/diet.osrl") at_terminal "./os solve --safe '$diet'; echo status \$?" </dev/null)
expect 'a converted file at a terminal' "$(has 'The least cost is 2.007272727272.., exactly 552/275.' "$seen") $(has 'status 0' "$seen")" 'yes yes'
seen=$(STUB_TEXT=document at_terminal "./os solve '$diet' --osrl" </dev/null)
expect 'a converted file at a terminal, with --osrl' "$seen" document
printf 'NAME t\nROWS\n N c\n L r\nCOLUMNS\n x c 1 r 1\nENDATA\n' >free.mps
STUB_TEXT=document ./os solve free.mps --free --max >out 2>err
expect 'a file of free MPS' "$(cat out err)" document
./os solve free.mps >out 2>err
expect 'status of a file that is refused' $? 1
expect 'line of a file that is refused' "$(has 'is it free MPS? then give --free' "$(cat out err)")" yes
mkdir rooms2
TMPDIR=$room/rooms2 STUB_HANGS=yes ./os solve "$diet" >out 2>err &
for _ in $(seq 300); do
    [ -z "$(ls rooms2)" ] || break
    sleep 0.1
done
sleep 2
kill -TERM $!
wait $! 2>/dev/null
expect 'status of a converted file that is interrupted' $? 143
expect 'what is left of converted files' "$(ls rooms2)" ''

# ---- input, signals and the time of a search

expect 'the input is handed on' "$(printf 'a request' | ./os session)" 'a request'
STUB_HANGS=yes ./os serve a 80 >out 2>err &
sleep 1
kill -TERM $!
wait $! 2>/dev/null
expect 'status behind TERM' $? 143
expect 'lines behind TERM' "$(cat err)" ''
kill -0 "$(cat pid)" 2>/dev/null
expect 'TERM reaches the program' $? 1
rm -f pid
seen=$(press_ctrl_c pid | at_terminal 'trap : INT; STUB_HANGS=yes ./os session; echo status $?')
expect 'status behind Ctrl-C' "$(has 'status 130' "$seen")" yes
kill -0 "$(cat pid)" 2>/dev/null
expect 'Ctrl-C reaches the program' $? 1

# ---- a search that Ctrl-C ends

mkdir rooms3
rm -f pid
seen=$({ press_ctrl_c pid; sleep 1; } | TMPDIR=$room/rooms3 STUB_HALTS=300 STUB_TEXT=document at_terminal 'trap : INT; ./os solve there; echo status $?')
expect 'what a search has that Ctrl-C ends' "$(has document "$seen")" yes
expect 'line behind Ctrl-C in a search' "$(has 'os: the search ends with what it has; Ctrl-C once more ends the program' "$seen")" yes
expect 'status behind Ctrl-C in a search' "$(has 'status 0' "$seen")" yes
expect 'nothing is left of the file that ends a search' "$(ls rooms3)" ''
rm -f pid
seen=$({ press_ctrl_c pid; press_ctrl_c pid; } | TMPDIR=$room/rooms3 STUB_HANGS=yes at_terminal 'trap : INT; ./os solve there; echo status $?')
expect 'status behind Ctrl-C twice' "$(has 'status 130' "$seen")" yes
kill -0 "$(cat pid)" 2>/dev/null
expect 'Ctrl-C twice ends the program' $? 1
expect 'nothing is left behind Ctrl-C twice' "$(ls rooms3)" ''
rm -f pid
seen=$(press_ctrl_c pid | STUB_HANGS=yes at_terminal 'trap : INT; ./os solve there 2>err; echo status $?')
expect 'status behind Ctrl-C where no one sees the lines' "$(has 'status 130' "$seen")" yes
rm -f pid
seen=$(press_ctrl_c pid | STUB_HANGS=yes at_terminal 'trap : INT; ./os generate 1; echo status $?')
expect 'status behind Ctrl-C in another command' "$(has 'status 130' "$seen")" yes
seen=$(STUB_SECONDS=2.5 STUB_TEXT=document STUB_TELLS='7/2 -' at_terminal './os solve there; echo status $?' </dev/null)
clear=$(printf '\033[K')
expect 'a long search that tells its best value' "$seen" "os: 2 s, best 3.5${clear}document${clear}status 0"
seen=$(STUB_SECONDS=2.5 STUB_TEXT=document STUB_TELLS='-12/1 -25/2' at_terminal './os solve there' </dev/null)
expect 'a long search that tells its bound too' "$seen" "os: 2 s, best -12, bound -12.5${clear}document${clear}"
seen=$(STUB_SECONDS=2.5 STUB_TEXT=document STUB_TELLS='- 1/3' at_terminal './os solve there' </dev/null)
expect 'a long search that has no point yet' "$seen" "os: 2 s, bound 0.333333${clear}document${clear}"
seen=$(STUB_TEXT=document STUB_TELLS='out of luck' at_terminal './os solve there' </dev/null)
expect 'what the program says besides at a terminal' "$(has 'out of luck' "$seen")" yes
STUB_TELLS='7/2 -' ./os solve there --halt mine >out 2>err </dev/null
expect 'how a search stands elsewhere' "$(cat err)" '7/2 -'
seen=$(STUB_SEEN=words at_terminal './os solve there --halt mine' </dev/null)
expect 'a file of my own ends a search' "$(cat words) $seen" 'solve there --halt mine '
seen=$(STUB_SEEN=words at_terminal './os solve there' </dev/null)
expect 'words of a search at a terminal' "$(sed 's|/[^ ]*/||g' words)$seen" 'solve --halt now --options osol there'
seen=$(STUB_SEEN=words at_terminal './os solve there --options mine' </dev/null)
expect 'words of a search at a terminal with options' "$(sed 's|/[^ ]*/||g' words)$seen" 'solve --halt now there --options mine'
STUB_SEEN=words ./os solve there >out 2>err </dev/null
expect 'words of a search elsewhere' "$(cat words)" 'solve there'

seen=$(STUB_SECONDS=3.5 STUB_TEXT=document at_terminal './os solve there; echo status $?' </dev/null)
clear=$(printf '\033[K')
expect 'a long search at a terminal' "$seen" "os: 2 sos: 3 sdocument${clear}status 0"
seen=$(STUB_SECONDS=2.5 STUB_TEXT=document at_terminal './os call --osil there solve a 80' </dev/null)
expect 'a long call at a terminal' "$seen" "os: 2 sdocument${clear}"
seen=$(STUB_SECONDS=1 STUB_TEXT=document at_terminal './os solve there' </dev/null)
expect 'a short search at a terminal' "$seen" document
STUB_SECONDS=3 STUB_TEXT=document ./os solve there >out 2>err
expect 'a long search elsewhere' "$(cat out err)" document

echo "$((tried - failed)) passed, $failed failed"
[ "$failed" -eq 0 ]
