#!/bin/sh
# Compares a program with the second implementation on generated scripts of 100 calls each; one seed is one test.
# At the first difference of a seed the script is cut down to few lines and printed.
# Usage: sh tests/compare.sh PROGRAM [--without CALL]     (with --without, lines with that call are left out)
[ $# -eq 1 ] || [ $# -eq 3 ] || { echo "usage: sh tests/compare.sh PROGRAM [--without CALL]" >&2; exit 2; }
program=$1
shift
root=$(dirname "$0")/..
work=$(mktemp -d) || exit 2
trap 'rm -rf "$work"' EXIT
tools=$work/tools
[ ! -d "$root/target" ] || tools=$root/target/second
sh "$root/second/build.sh" "$tools" || exit 2

scripts=1000
good=0
bad=0
for seed in 1 2 3 4 5; do
    if TMPDIR=$work "$tools/compare" "$program" "$tools/second" "$tools/generate" "$seed" "$scripts" "$@" >"$work/said"; then
        good=$((good + 1))
    else
        bad=$((bad + 1))
        echo "FAIL seed $seed"
        cat "$work/said"
    fi
done
echo "$good passed, $bad failed"
[ "$bad" -eq 0 ]
