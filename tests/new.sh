# shellcheck shell=sh disable=SC2154
# Sourced by the scripts that have rt build what is missing or old. They have set `top`.

# Whether nothing that FILE is built from has changed since. What rt makes lies in a crate's out/, so the crate's own folder changes with that.
is_new() { # FILE
    [ -f "$1" ] && [ -z "$(
        cd "$top" && find crates crates.txt toolchain.txt -name out -prune -o \
            \( ! -type d -o -path crates -o -path 'crates/*/*' \) -newer "$1" -print
    )" ]
}

# The crates of this repository that NAME is built from, NAME last. In crates.txt each stands only on those above it.
crates_of() { # NAME
    tac "$top/crates.txt" | awk -F '[: ]+' -v name="$1" \
        'BEGIN { used[name] } $1 in used { print $1; for (i = 2; i <= NF; i++) used[$i] }' | tac
}

# Has rt prove and build CRATE, and below it whatever has changed. rt runs a program that it has built, here on an empty input.
build_crate() { # CRATE
    (cd "$top/crates/$1" && if [ -f src/main.rt ]; then rt run; else rt lib; fi) </dev/null
}

# What the building of a program begins and ends with. target/bin/NAME is given the time at which it began: it is then older than what is
# changed meanwhile, and newer than all else, also where rt finds it unchanged.
begin_program() { # NAME
    mkdir -p "$top/target/bin" && touch "$top/target/$1.began"
}

keep_program() { # NAME
    cp "$top/crates/$1/out/$1" "$top/target/$1.built" && touch -r "$top/target/$1.began" "$top/target/$1.built" &&
        mv "$top/target/$1.built" "$top/target/bin/$1"
}

build_programs() { # NAME..
    for program in "$@"; do
        begin_program "$program" && build_crate "$program" && keep_program "$program" || return
    done
}
