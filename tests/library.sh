# shellcheck shell=sh disable=SC2154
# The static library of the functions for C, and a compiler for what links it. Sourced after tests/suite.sh by the scripts that do. The
# library is x86-64 code: on another machine what links it is compiled for that.
# shellcheck source=tests/new.sh
. "$top/tests/new.sh" || exit 1
library=$top/target/staticlib/libexports.a

# Installs a missing program where root asks.
find_program() { # PROGRAM PACKAGE
    command -v "$1" >/dev/null && return
    [ "$(id -u)" -eq 0 ] || return
    { apt-get update && DEBIAN_FRONTEND=noninteractive apt-get install -y "$2"; } >"$build/apt.log" 2>&1
    command -v "$1" >/dev/null
}

# Sets `compiler`.
find_compiler() {
    compiler=gcc
    [ "$(uname -m)" != x86_64 ] || return 0
    compiler=x86_64-linux-gnu-gcc
    find_program "$compiler" gcc-x86-64-linux-gnu
}

library_is_new() { is_new "$library"; }

# An old library is never linked.
build_library() {
    rm -f "$library"
    quiet "$top/tests/archive"
}
