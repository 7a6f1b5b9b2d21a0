# shellcheck shell=sh disable=SC2034
# Sourced by the tests of faults: a folder $work of their own, and what they compare.
work=$(mktemp -d) || exit 1
trap 'rm -rf "$work"' EXIT
failed=0

# ended NAME STATUS OUT TOLD CODE: runs the code and compares its exit status, its standard output with the file OUT, or `none` or `some`,
# and its standard error with the pattern TOLD.
ended() {
    timeout 60 sh -c "$5" >"$work/out" 2>"$work/err" </dev/null
    status=$?
    faults=$(
        [ "$status" -eq "$2" ] || echo "  its exit status is $status, and not $2"
        is_out "$3" || sed 's/^/  it wrote: /' "$work/out" | head -n 20
        # shellcheck disable=SC2254 # it is a pattern
        case $(cat "$work/err") in $4) ;; *) sed 's/^/  it told: /' "$work/err" ;; esac
    )
    if [ -z "$faults" ]; then
        echo "ok $1"
    else
        printf '%s\nFAILED %s\n' "$faults" "$1"
        failed=1
    fi
}

is_out() { # FILE|none|some
    case $1 in
    none) [ ! -s "$work/out" ] ;;
    some) [ -s "$work/out" ] ;;
    *) cmp -s "$work/out" "$1" ;;
    esac
}
