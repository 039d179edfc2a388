#!/usr/bin/env bash
# Makes the package twice, reads it by lintian, and tries it in a root of Debian 12 that has no toolchain: installs it, solves and checks,
# turns LP and MPS files into OSiL, has systemd read the unit, upgrades over a server that has a journal, removes it and purges it.
# It has to be root, and installs mmdebstrap and lintian.
#   bash tools/package_try.sh
# OS_PROGRAM names another program than the one that is built here; the package then says that it isn't proved. PACKAGE_ROOT names a tar of
# such a root, `mmdebstrap --variant=minbase --include=systemd bookworm TAR`, where it is to be made once and kept.
cd "$(dirname "$0")/.." || exit 2
. tools/packages.sh
[ "$(id -u)" -eq 0 ] || { echo 'package_try: only root may make a root of its own' >&2; exit 2; }
install_packages lintian mmdebstrap python3
room=$(mktemp -d) || exit 2
root=$room/root
server=
passed=0
failed=0
flag=
[ -z "${OS_PROGRAM-}" ] || flag=--unproved

finish() {
    [ -z "$server" ] || { kill "$server"; wait "$server"; } 2>/dev/null
    rm -rf "$room"
}
trap finish EXIT
trap 'exit 130' HUP INT TERM

# WHAT FOUND WANTED: counts it, and says where they differ.
expect() {
    if [ "$2" = "$3" ]; then
        passed=$((passed + 1))
    else
        failed=$((failed + 1))
        printf '%s\n  found:  %s\n  wanted: %s\n' "$1" "$2" "$3"
    fi
}

# The seconds that something took, or that they are within the most, or that nothing is said of them where other work has the processors.
within() {
    if [ "$1" -gt "$2" ] && awk '/^some/ { sub("avg60=", "", $3); exit !($3 + 0 < 50) }' /proc/pressure/cpu; then echo "$1"; else echo "within $2"; fi
}

# Runs a command of the root, and leaves out what a build for trying says of itself.
inside() {
    chroot "$root" env -i PATH=/usr/bin:/usr/sbin:/bin:/sbin HOME=/root LC_ALL=C.UTF-8 DEBIAN_FRONTEND=noninteractive "$@"
}
quiet() {
    inside "$@" 2>&1 | grep -v '^gubnatris: nothing of this build is proved'
}

# Files of the root that have the package's name, but for what apt keeps of its archive and the list of what was removed.
left_over() {
    (cd "$root" && find . \( -path ./proc -o -path ./sys -o -path ./var/lib/apt -o -path ./var/cache/apt -o -path ./var/log \) -prune -o -name '*gubnatris*' -print) | sort | tr '\n' ' '
}

make_root() {
    mkdir "$root" || return
    if [ -n "${PACKAGE_ROOT-}" ]; then
        tar -xf "$PACKAGE_ROOT" -C "$root"
    else
        mmdebstrap --quiet --variant=minbase --include=systemd bookworm "$root" >/dev/null
    fi && cp /etc/resolv.conf "$root/etc/resolv.conf"
}

# PACKAGE NEW: the same package under a later version.
make_later() {
    dpkg-deb -R "$1" "$room/later" && sed -i 's/^Version: .*/&.1/' "$room/later/DEBIAN/control" && dpkg-deb --root-owner-group -b "$room/later" "$2" >/dev/null
}

try_build() {
    mkdir "$room/one" "$room/two"
    package=$(bash tools/package.sh $flag "$room/one") || exit 1
    bash tools/package.sh $flag "$room/two" >/dev/null
    expect 'two builds have the same bytes' "$(cmp "$package" "$room/two/$(basename "$package")" 2>&1)" ''
    expect 'lintian' "$(lintian --allow-root --fail-on none "$package")" ''
    expect 'what the program links to' "$(dpkg-deb -f "$package" Depends)" 'python3:any, libc6 (>= 2.34)'
}

try_install() {
    local begun=$SECONDS taken
    cp "$package" "$root/root/one.deb"
    expect 'the toolchain in the root' "$(inside sh -c 'command -v rt clang python3')" ''
    { inside apt-get update -q && inside apt-get install -y -q --no-install-recommends /root/one.deb; } >"$room/log" 2>&1 || { cat "$room/log"; exit 1; }
    inside gubnatris solve /usr/share/doc/gubnatris/examples/knapsack.osil >"$root/root/result" 2>/dev/null
    taken=$((SECONDS - begun))
    expect 'seconds until a first example is solved' "$(within "$taken" 60)" 'within 60'
    echo "installed and a first example solved in $taken s, $(du -sk --apparent-size "$root/usr/lib/gubnatris" "$root/usr/share/gubnatris" "$root/usr/share/doc/gubnatris" | awk '{ all += $1 } END { print all }') kB"
    expect 'the result is shown' "$(quiet gubnatris check /usr/share/doc/gubnatris/examples/knapsack.osil /root/result)" 'accepted optimal'
}

try_words() {
    expect 'a file that is not there' "$(quiet gubnatris solve nofile.osil)" \
        "gubnatris: can't read nofile.osil: there is no such file; name another file: gubnatris solve OSIL [--options OSOL] [--result OSRL] [--seconds N] [--halt FILE] [--safe]"
    expect 'the help names the command' "$(quiet gubnatris help generate | grep -x 'gubnatris generate N')" 'gubnatris generate N'
    expect 'no help names the checkout' "$(quiet gubnatris help | grep -c '\./os')" 0
    expect 'try is a word of the checkout' "$(quiet gubnatris try generate 1 | tail -n 1)" 'gubnatris: there is no command try; gubnatris help lists those that there are'
    inside sh -c 'printf "Minimize\n c: x + y\nSubject To\n r: x + 2 y >= 3\nEnd\n" >/root/a.lp; gubnatris-lp-to-osil /root/a.lp /root/a.osil; gubnatris solve /root/a.osil 2>/dev/null >/root/a.osrl'
    expect 'an LP file' "$(quiet gubnatris-show-result /root/a.osil /root/a.osrl | sed -n 2p)" 'The least c is 1.5.'
    inside gubnatris-mps-to-osil --free /usr/share/doc/gubnatris/examples/capital_budget.mps /root/b.osil
    expect 'an MPS file' "$(quiet gubnatris solve /root/b.osil | grep -o 'os_cert.value"><item>[0-9]*')" 'os_cert.value"><item>42'
    expect 'the Python client' "$(inside python3 -c "import gubnatris; print(gubnatris.read_result(open('/root/result').read()).objective)")" 30
    expect 'what is said of the proof' "$(head -n 1 "$root/usr/share/doc/gubnatris/PROVED" | grep -c "$(git rev-parse HEAD)")" 1
    for page in gubnatris.1 gubnatris-mps-to-osil.1 gubnatris-instances.7; do
        expect "the page $page" "$(gzip -dc "$root/usr/share/man/man${page##*.}/$page.gz" | grep -c '^.SH NAME')" 1
    done
}

# What lies there beside: drivers of modelling systems, completions, units and the proxy's configuration, and what these name.
try_files() {
    local file
    for file in bin/gubnatris_ampl bin/gubnatris_fzn share/minizinc/solvers/gubnatris.msc share/bash-completion/completions/gubnatris \
        share/zsh/vendor-completions/_gubnatris lib/gubnatris/serve lib/gubnatris/standby lib/gubnatris/page/index.html \
        share/doc/gubnatris/README.md share/doc/gubnatris/PROVED share/doc/gubnatris/examples/deploy/haproxy.cfg; do
        expect "the file /usr/$file" "$([ -s "$root/usr/$file" ] && echo there)" there
    done
    expect 'the driver of FlatZinc' "$(quiet sh -c 'printf "var 1..3: x :: output_var;\nsolve maximize x;\n" >/root/a.fzn; gubnatris_fzn /root/a.fzn' | head -n 1)" 'x = 3;'
}

try_units() {
    local unit
    for unit in gubnatris gubnatris-standby; do
        cp "$root/usr/share/doc/gubnatris/examples/deploy/$unit@.service" "$root/etc/systemd/system/"
        expect "systemd reads the unit $unit" "$(inside systemd-analyze verify "$unit@1.service" 2>&1 | grep -i gubnatris)" ''
        rm "$root/etc/systemd/system/$unit@.service"
    done
}

# Starts a server of the root on its journal, and waits until it listens.
start_server() {
    coproc served { exec chroot "$root" env -i PATH=/usr/bin:/bin JOURNALS=/var/lib/gubnatris /usr/lib/gubnatris/serve 1 "$port"; }
    # shellcheck disable=SC2154 # bash sets it
    server=$served_PID
    read -r line <&"${served[0]}"
    expect 'the server listens' "$line" listening
}

called() {
    quiet gubnatris call "$1" 127.0.0.1 "$port" "${@:2}"
}

try_upgrade() {
    port=$(python3 -c 'import socket; print(socket.create_server(("127.0.0.1", 0)).getsockname()[1])')
    mkdir -p "$root/var/lib/gubnatris"
    start_server
    job=$(called getJobID)
    printf '<osol><general><jobID>%s</jobID></general></osol>' "$job" >"$root/root/job.osol"
    expect 'a job is sent' "$(called send --osil /usr/share/doc/gubnatris/examples/knapsack.osil --osol /root/job.osol)" true
    make_later "$package" "$root/root/two.deb"
    inside dpkg -i /root/two.deb >"$room/log" 2>&1
    expect 'the upgrade' "$?" 0
    # shellcheck disable=SC2016 # dpkg-query puts it in
    expect 'the version behind it' "$(inside dpkg-query -W -f '${Version}' gubnatris)" "$(dpkg-deb -f "$package" Version).1"
    for _ in $(seq 50); do
        called retrieve --osol /root/job.osol >"$room/before"
        ! grep -q '<status type="optimal"/>' "$room/before" || break
        sleep 0.2
    done
    kill "$server" && wait "$server" 2>/dev/null
    start_server
    called retrieve --osol /root/job.osol >"$room/after"
    expect 'the job over upgrade and start' "$(cmp "$room/before" "$room/after" && grep -o '<status type="optimal"/>' "$room/after")" '<status type="optimal"/>'
    kill "$server" && wait "$server" 2>/dev/null
    server=
}

try_removal() {
    inside dpkg --remove gubnatris >"$room/log" 2>&1
    expect 'removal' "$?" 0
    inside dpkg --purge gubnatris >"$room/log" 2>&1
    expect 'purge' "$?" 0
    expect 'what is left is the journal' "$(left_over)" './var/lib/gubnatris '
}

try_build
make_root || { echo 'package_try: no root of Debian 12 could be made' >&2; exit 1; }
try_install
try_words
try_files
try_units
try_upgrade
try_removal
echo "$passed passed, $failed failed"
[ "$failed" -eq 0 ]
