#!/usr/bin/env bash
# What the built programs print, where, and with which exit status: what no contract can say, and rt does not try, since it
# tries one run of a program and does not look at standard error. With --built they are run as rt ci has left them; else those
# that have changed are proved and built first.
set -uo pipefail
cd "$(dirname "${BASH_SOURCE[0]}")/.."
work=$(mktemp -d)
trap 'rm -rf "$work"' EXIT
failed=0

# expect STATUS STDOUT STDERR COMMAND...: the two texts are patterns, as in case.
expect() {
    local status=$1 out=$2 err=$3
    shift 3
    "$@" >"$work/out" 2>"$work/err"
    local got=$?
    # shellcheck disable=SC2254
    case "$got/$(cat "$work/out")/$(cat "$work/err")" in
        $status/$out/$err) ;;
        *)
            printf 'FAILED: %s\n  status %s, stdout: %s\n  stderr: %s\n' "$*" "$got" "$(cat "$work/out")" "$(cat "$work/err")"
            failed=1
            ;;
    esac
}

bytes() { printf "$1" >"$work/day"; }
row() { printf "$1" >"$work/row"; }

# same FILE FILE: the two have the same bytes.
same() { expect 0 '' '' cmp "$1" "$2"; }
# old FILE, still FILE: it gets some text, and holds it still.
old() { printf 'as it was' >"$1"; }
still() { expect 0 'as it was' '' cat "$1"; }

if [ "${1-}" != --built ]; then
    for program in plan day checker sheet; do
        (cd crates/$program && rt run -- --help) >"$work/built" 2>&1 || {
            cat "$work/built"
            exit 1
        }
    done
fi
plan=crates/plan/out/plan
day=crates/day/out/day
checker=crates/checker/out/checker
sheet=crates/sheet/out/sheet
for part in plan day checker sheet written; do
    # shellcheck source=/dev/null
    source "tests/$part.sh"
done

exit "$failed"
