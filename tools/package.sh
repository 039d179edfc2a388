#!/usr/bin/env bash
# Makes a Debian package of the last commit: the program, its converters, views and Python client, manual pages of docs/commands.txt and
# the rules, and examples of units and of the proxy. The program is the one that `./os` proves and builds. The same commit and the same
# program make the same bytes. It installs debhelper and what else the package is made by.
#   bash tools/package.sh [FOLDER]               writes it to FOLDER, out/ where none is named, and prints its name
#   bash tools/package.sh --unproved [FOLDER]    of the program that OS_PROGRAM names, of which nothing is known: for trying alone, and
#                                                the package says so wherever it is asked
cd "$(dirname "$0")/.." || exit 2
. tools/packages.sh
is_unproved=
[ "${1-}" != --unproved ] || { is_unproved=yes && shift; }
folder=$(realpath -m -- "${1:-out}")

# Says why there is no package, and ends.
refuse() {
    echo "package: $1" >&2
    exit 1
}

# What the package says of its proof.
tell_proof() {
    if [ -n "$is_unproved" ]; then
        echo "NOTHING OF THIS BUILD IS PROVED. It was made for trying, of commit $commit, with a program whose origin isn't known."
    else
        echo "The program was proved and built of commit $commit by the toolchain $(rt version 2>/dev/null | head -n 1)."
        echo "Its crates, each of which builds only when every function is proved to meet its contract:"
        sed -n 's/^rt: \([a-z][a-z0-9_]*\) \(proved\|is kept\).*/    \1/p' crates/os_main/out/crates.log
    fi
    echo "What its contracts say, and what no clause says: docs/HEADLINE.md, docs/PROOFS.md. What was only tried: docs/OUTSIDE.md."
    echo "What is trusted beside them: that toolchain, its compiler, and the C library."
}

# The package's version: that of the Python client, and the commit.
version() {
    local base
    base=$(sed -n 's/^version = "\(.*\)"$/\1/p' clients/python/pyproject.toml 2>/dev/null)
    echo "${base:-1.0.0}+git$(TZ=UTC git log -1 --format=%cd --date=format-local:%Y%m%d.%H%M).${commit:0:8}${is_unproved:++unproved}"
}

# Completions for the command alone; the checkout has some for ./os too.
add_completions() {
    mkdir completions
    sh tools/completions.sh bash | sed 's/-F _gubnatris .*/-F _gubnatris gubnatris/' >completions/gubnatris
    sh tools/completions.sh zsh | sed '1s/.*/#compdef gubnatris/' >completions/_gubnatris
    printf '%s\n' 'completions/gubnatris usr/share/bash-completion/completions' 'completions/_gubnatris usr/share/zsh/vendor-completions' >>debian/gubnatris.install
}

# The drivers of modelling systems, where there are some: scripts that run what the Python package has, and what MiniZinc reads of one.
add_drivers() {
    local driver
    mkdir drivers
    for driver in clients/*/gubnatris_*; do
        if [ -x "$driver" ]; then cp "$driver" drivers; fi
    done
    [ -z "$(ls drivers)" ] || echo 'drivers/* usr/bin' >>debian/gubnatris.install
    if [ -f clients/minizinc/gubnatris.msc ]; then
        sed 's|"\./gubnatris_fzn"|"/usr/bin/gubnatris_fzn"|' clients/minizinc/gubnatris.msc >drivers.msc && mkdir minizinc && mv drivers.msc minizinc/gubnatris.msc
        echo 'minizinc/gubnatris.msc usr/share/minizinc/solvers' >>debian/gubnatris.install
    fi
}

# Puts the sources of the package into the current folder, named as they are called where it is installed.
lay_out() {
    git -C "$top" archive "$commit" | tar -x || return
    find . -type f ! -path './crates/*' ! -path './packaging/*' -exec grep -IlZ . {} + | xargs -0 sed -i -f packaging/names.sed || return
    sed -i '/^command try$/,/^$/d' docs/commands.txt
    cp -R packaging/debian debian && cp packaging/os_installed.sh tools/os_build.sh || return
    mkdir program man python && cp "$program" program/os_main && cp "$proof" PROVED || return
    cp -R clients/python/gubnatris* python && add_drivers || return
    mkdir examples/deploy && cp deploy/README.md deploy/*.cfg deploy/*.service examples/deploy || return
    rm -rf clients crates tools/os_lines.sh tools/os_try.sh
    printf 'gubnatris %s\ncommit %s\n%s\n' "$version" "$commit" "${is_unproved:+nothing of this build is proved}" | sed '/^$/d' >version
    if [ -n "$is_unproved" ]; then
        echo 'say "nothing of this build is proved; it was made for trying"' >>tools/os_build.sh
        sed -i 's/^Description: .*/& (NOT PROVED)/' debian/control
    fi
    printf 'gubnatris (%s) unstable; urgency=medium\n\n  * Of commit %s.\n\n -- Gubnatris maintainers <maintainers@users.noreply.gubnatris.example>  %s\n' \
        "$version" "$commit" "$(LC_ALL=C git -C "$top" log -1 --format=%cD)" >debian/changelog
    python3 packaging/man_pages.py "$version" "$(TZ=UTC git -C "$top" log -1 --format=%cd --date=format-local:%Y-%m-%d)" man || return
    if [ -f tools/completions.sh ]; then add_completions; fi
}

[ -z "${OS_PROGRAM-}" ] || [ -n "$is_unproved" ] || refuse "OS_PROGRAM names a program of which nothing is known to be proved; make a package for trying with --unproved, or leave it unset"
[ -z "$is_unproved" ] || [ -n "${OS_PROGRAM-}" ] || refuse "--unproved packs the program that OS_PROGRAM names, and names none"
[ -z "$(git status --porcelain)" ] || refuse "the files aren't those of a commit; commit them first, or set them aside"
[ "$(dpkg --print-architecture)" = amd64 ] || refuse "the program is built for amd64 alone"
. tools/program.sh
program=$OS_PROGRAM
install_packages build-essential debhelper dh-python lowdown python3
top=$PWD
commit=$(git rev-parse HEAD)
version=$(version)
room=$(mktemp -d) || exit 2
trap 'rm -rf "$room"' EXIT
proof=$room/proof
tell_proof >"$proof"
SOURCE_DATE_EPOCH=$(git log -1 --format=%ct)
export SOURCE_DATE_EPOCH LC_ALL=C.UTF-8 TZ=UTC
umask 022
if ! { mkdir "$room/gubnatris" && cd "$room/gubnatris" && lay_out; }; then
    refuse "the sources couldn't be laid out below ${TMPDIR:-/tmp}"
fi
DEB_BUILD_OPTIONS=nocheck dpkg-buildpackage -b -us -uc >"$room/log" 2>&1 || { cat "$room/log" >&2; refuse "dpkg-buildpackage says above why not"; }
if ! { mkdir -p "$folder" && cp "$room/gubnatris_${version}_amd64.deb" "$folder"; }; then
    refuse "can't write to $folder"
fi
echo "$folder/gubnatris_${version}_amd64.deb"
