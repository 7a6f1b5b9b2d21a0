# shellcheck shell=sh disable=SC2034 # whoever sources this ends with $failed
# Sourced by the tests of programs: a folder $work of their own, and what they compare.
work=$(mktemp -d) || exit 1
trap 'rm -rf "$work"' EXIT
failed=0

# expect NAME: compares the files `due` and `got`.
expect() {
    if cmp -s "$work/due" "$work/got"; then
        echo "ok $1"
    else
        diff -a "$work/due" "$work/got" | head -n 20 | sed 's/^/  /'
        echo "FAILED $1"
        failed=1
    fi
}

crlf() { sed 's/$/\r/'; }
