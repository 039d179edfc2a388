# shellcheck shell=sh disable=SC2034,SC2154 # the script that reads it has set, and uses, what stands here
# Read by the command of the package in the place of tools/os_build.sh: the program is there, and is never built.
program=/usr/lib/gubnatris/os_main

is_built() {
    [ -x "$program" ]
}

# What the package is, in the place of what the checkout is.
tell_version() {
    cat "$here/version"
}

build() {
    say "$program isn't there, or may not be run; install the package anew"
    exit 1
}
