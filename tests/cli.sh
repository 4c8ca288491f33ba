#!/bin/sh
# Calls a program with the words of each case, and compares what it prints and how it ends.
# Usage: sh tests/cli.sh PROGRAM
[ $# -eq 1 ] || { echo "usage: sh tests/cli.sh PROGRAM" >&2; exit 2; }
case $1 in
/*) program=$1 ;;
*) program=$(pwd)/$1 ;;
esac
cd "$(dirname "$0")" || exit 2
work=$(mktemp -d) || exit 2
trap 'rm -rf "$work"' EXIT

# The words of a case, one to a line.
call() { # FILE
    words=$1
    set --
    while IFS= read -r word; do set -- "$@" "$word"; done <"$words"
    "$program" "$@" >"$work/stdout" 2>"$work/stderr"
}

# Whether the last call wrote what the file has, and nothing where there is no file.
wrote() { # stdout|stderr FILE
    if [ -e "$2" ]; then cmp -s "$work/$1" "$2"; else [ ! -s "$work/$1" ]; fi
}

good=0
bad=0
for case in cli/*.words; do
    base=${case%.words}
    want=0
    [ ! -e "$base.stderr" ] || want=1
    call "$case"
    status=$?
    if ! wrote stdout "$base.stdout"; then
        echo "FAIL tests/$case: other text on standard output than expected"
    elif ! wrote stderr "$base.stderr"; then
        echo "FAIL tests/$case: other text on standard error than expected"
    elif [ "$status" -ne "$want" ]; then
        echo "FAIL tests/$case: status $status, expected $want"
    else
        good=$((good + 1))
        continue
    fi
    bad=$((bad + 1))
done
echo "$good passed, $bad failed"
[ "$bad" -eq 0 ]
