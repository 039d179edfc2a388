# shellcheck shell=bash
# Read by scripts that need packages of Debian's.

# Reads the lists of packages anew. Where another program holds them it waits, five minutes at most: apt itself waits for dpkg alone.
update_lists() {
    local told
    for _ in {1..60}; do
        told=$(LC_ALL=C apt-get update -q 2>&1 >/dev/null) && return
        [[ $told == *'Could not get lock'* ]] || break
        sleep 5
    done
    echo "$told" >&2
    return 1
}

# Installs those of these packages that aren't there.
install_packages() {
    local package missing=()
    for package in "$@"; do
        dpkg -s "$package" >/dev/null 2>&1 || missing+=("$package")
    done
    [ "${#missing[@]}" -eq 0 ] || {
        update_lists && DEBIAN_FRONTEND=noninteractive apt-get install -y -q --no-install-recommends -o DPkg::Lock::Timeout=300 "${missing[@]}"
    } >/dev/null || exit
}
