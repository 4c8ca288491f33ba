#!/bin/sh
# Runs every script through a program and compares what it prints.
# Usage: sh tests/run.sh PROGRAM [WORD ...]     (the program is called as PROGRAM WORD ... run SCRIPT)
[ $# -gt 0 ] || { echo "usage: sh tests/run.sh PROGRAM [WORD ...]" >&2; exit 2; }
here=$(dirname "$0")
work=$(mktemp -d) || exit 2
trap 'rm -rf "$work"' EXIT
good=0
bad=0
for script in "$here"/scripts/*.script "$here"/nocall/*.script; do
    base=${script%.script}
    "$@" run "$script" >"$work/out" 2>"$work/err"
    status=$?
    if [ -e "$base.line" ]; then
        want=1
        line=$(cat "$base.line")
        # the line number stands in the message as a number of its own
        told=$(grep -E -c "(^|[^0-9])$line([^0-9]|\$)" "$work/err")
    else
        want=0
        told=1
    fi
    if ! cmp -s "$work/out" "$base.expected"; then
        echo "FAIL $script: other answers than expected"
        diff "$work/out" "$base.expected" | head -n 4
    elif [ "$status" -ne "$want" ]; then
        echo "FAIL $script: status $status, expected $want"
    elif [ "$told" -eq 0 ]; then
        echo "FAIL $script: line $line is not named on standard error"
    else
        good=$((good + 1))
        continue
    fi
    bad=$((bad + 1))
done
echo "$good passed, $bad failed"
[ "$bad" -eq 0 ]
