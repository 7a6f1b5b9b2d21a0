# shellcheck shell=sh disable=SC2154
# What the run scripts of the suites under tests/ and of bench/ share. They have set `top` and `build`. tests/gate/ tests it.

# rt tells all that it proves: that is of use only where it fails.
quiet() { # COMMAND.. that has rt build
    "$@" >"$build/rt.log" 2>&1 && return
    tail -n 20 "$build/rt.log"
    return 1
}

# A failure has a line of its own, even where the command ended in the middle of one.
ok_if() { # NAME COMMAND..
    name=$1
    shift
    if "$@"; then echo "ok $name"; else printf '\nFAILED %s\n' "$name"; return 1; fi
}

count() { # ok|FAILED LOG
    grep -ac "^$1 " "$2"
}

# A good end is 0 where a test was named, and 1 where a failure was. Why this one is not:
fault_of_end() { # STATUS PASSED FAILED
    case $1:$2:$3 in
    0:0:0) echo 'ended with status 0 and named no test' ;;
    0:* | 1:*:[1-9]*) ;;
    *:0) echo "ended with status $1 and named no failure" ;;
    *) echo "ended with status $1" ;;
    esac
}

ends_in_a_line() { # LOG
    [ "$(tail -c 1 "$1" | wc -l)" -eq 1 ]
}

# Shows what COMMAND prints, keeps it in LOG, and adds a failure to both where it comes to no good end. What follows begins a new line.
run_kept() { # LOG NAME COMMAND.. that prints a line `ok NAME` or `FAILED NAME` for each test
    log=$1 name=$2
    shift 2
    rm -f "$log" "$log.status"
    { ("$@") 2>&1; echo $? >"$log.status"; } | tee "$log"
    fault=$(fault_of_end "$(cat "$log.status")" "$(count ok "$log")" "$(count FAILED "$log")")
    {
        ends_in_a_line "$log" || echo
        [ -z "$fault" ] || echo "FAILED $name $fault"
    } | tee -a "$log"
}

run_to_its_end() { # NAME COMMAND.. as for run_kept
    run_kept "$build/program.log" "$@"
}

# The last line is what ./test reads.
run_and_count() { # COMMAND.. as for run_kept
    run_kept "$build/run.log" 'the suite' "$@"
    passed=$(count ok "$build/run.log")
    failed=$(count FAILED "$build/run.log")
    echo "$passed passed, $failed failed"
    [ "$failed" -eq 0 ] && [ "$passed" -gt 0 ]
}
