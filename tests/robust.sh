#!/bin/sh
# Gives the program files that are no book files, names that no book has, places where no part can be written, and too
# little room, and runs it under valgrind. Each call ends by itself, with the status and the message that it should, and
# leaves no part where it fails.
# Usage: sh tests/robust.sh PROGRAM
[ $# -eq 1 ] || { echo "usage: sh tests/robust.sh PROGRAM" >&2; exit 2; }
case $1 in
/*) program=$1 ;;
*) program=$(pwd)/$1 ;;
esac
cd "$(dirname "$0")" || exit 2
work=$(mktemp -d) || exit 2
trap 'rm -rf "$work"' EXIT

. ./counting.sh

detail() {
    head -n 4 "$work/stderr"
}

# The program with these words; its status is kept.
call() { # WORDS OF THE COMMAND
    "$program" "$@" >"$work/stdout" 2>"$work/stderr"
    status=$?
}

# The last call failed: status 1, one message of the program's own, and no part left.
failed() {
    [ "$status" -eq 1 ] && grep -q '^winavulor: ' "$work/stderr" && [ ! -e "$work/part" ]
}

# A call that fails, with this text in its message.
fails() { # TEXT WORDS OF THE COMMAND
    text=$1
    shift
    call "$@"
    failed && grep -q -e "$text" "$work/stderr"
    count $? "$*: not refused with '$text'"
    rm -rf "$work/part"
}

# The same where nothing is printed as an answer.
silent() { # TEXT WORDS OF THE COMMAND
    fails "$@"
    [ ! -s "$work/stdout" ]
    count $? "$*: it prints an answer"
}

# Files that are not there, are no files, or are no book files.
mkdir "$work/folder"
: >"$work/empty"
head -c 100000000 /dev/zero >"$work/zeros"
head -c 100000000 /dev/urandom >"$work/random"
for verb in check show run; do
    silent 'none cannot be read' "$verb" "$work/none"
    silent 'folder cannot be read' "$verb" "$work/folder"
    silent 'empty/book cannot be read' "$verb" "$work/empty/book"
done
silent 'none cannot be read' cut "$work/none" "$work/part" concept:Relay
silent 'folder cannot be read' cut "$work/folder" "$work/part" concept:Relay
for file in zeros random; do
    for verb in check show; do
        silent "$file is refused at byte" "$verb" "$work/$file"
    done
    silent "$file is refused at byte" cut "$work/$file" "$work/part"
    silent 'line [0-9]*: ' run "$work/$file"
done
fails "no name 'concept:Relay'" cut "$work/empty" "$work/part" concept:Relay
fails 'number 20, layer 2' cut "$work/empty" "$work/part"
call check "$work/empty"
[ "$status" -eq 0 ] && grep -q '^accepted: 0 records' "$work/stdout"
count $? 'check of an empty file: it is not accepted with 0 records'

# Labels that no name has.
book=books/substation.book
long=$(head -c 5000 /dev/zero | tr '\0' x)
for word in concept:relay concept:Relayx concept:Rela concept: : "concept:$long" 'concept:Relay ' role:Relay Concept:Relay \
    concept::Relay 'concept:Relé' "$(printf 'concept:\001')" ''; do
    fails "the book has no name '" cut "$book" "$work/part" "$word"
done
fails 'the words of the command cannot be read' cut "$book" "$work/part" "$(printf 'concept:\377')"

# Parts that cannot be written.
cat "$book" >"$work/file"
fails 'cannot be written' cut "$book" "$work/none/part"
fails 'cannot be written' cut "$book" "$work/file/part"
fails 'cannot be written' cut "$book" "$work/folder"
fails 'cannot be written' cut "$book" "$work/$long"
fails 'cannot be written' cut "$book" ''
fails 'cannot be written' cut "$work/file" "$work/file"
cmp -s "$book" "$work/file"
count $? 'cut of a book into itself: the book is not kept'

# No byte may be written to a file, and the signal that says so is ignored: what was begun of the part does not stay.
(trap '' XFSZ && ulimit -f 0 && "$program" cut "$book" "$work/part" 2>&1) | cat >"$work/stderr"
grep -q 'part cannot be written' "$work/stderr" && [ ! -e "$work/part" ]
count $? 'cut with no room for the part: no message, or it leaves a file'

# Memory for the text of a script, and not for a table of its lines or of the words of a line: all lines are performed, and
# those before a line that is no call.
{ echo 'name 0 41'; head -c 20000000 /dev/zero | tr '\0' '\n'; } >"$work/lines"
(ulimit -v 100000 && "$program" run "$work/lines" >"$work/stdout" 2>"$work/stderr")
[ $? -eq 0 ] && [ "$(cat "$work/stdout")" = 'ok 0' ]
count $? 'run of many lines with little memory: they are not performed'
{ echo 'name 0 41'; printf freeze; yes ' a' | head -n 10000000 | tr -d '\n'; echo; } >"$work/words"
(ulimit -v 100000 && "$program" run "$work/words" >"$work/stdout" 2>"$work/stderr")
[ $? -eq 1 ] && [ "$(cat "$work/stdout")" = 'ok 0' ] && grep -q 'line 2: there are words too many' "$work/stderr"
count $? 'run of a line with many words and little memory: another fault, or the line before it is not answered'

# Little memory: the file is too large for it, or the book.
(ulimit -v 40000 && "$program" check "$work/zeros" >"$work/stdout" 2>"$work/stderr")
status=$?
failed
count $? 'check of a file that is larger than the memory: it does not fail with a message'
(ulimit -v 170000 && "$program" run "$work/zeros" >"$work/stdout" 2>"$work/stderr")
status=$?
failed && grep -q 'winavulor: out of memory' "$work/stderr"
count $? 'run of a file for which the memory is there once: it does not fail with a message'
whole=0
size=2800
while [ "$size" -le 6000 ]; do
    (ulimit -v "$size" && "$program" cut "$book" "$work/part" >"$work/stdout" 2>"$work/stderr")
    status=$?
    if [ "$status" -eq 0 ]; then [ -s "$work/part" ]; else [ ! -e "$work/part" ]; fi || whole=1
    rm -f "$work/part"
    size=$((size + 100))
done
count $whole 'cut with little memory: a call that fails leaves a file, or one that does not writes none'

# Runs under valgrind, with no error and no memory lost.
clean() { # STATUS WORDS OF THE COMMAND
    wanted=$1
    shift
    valgrind -q --error-exitcode=9 --leak-check=full "$program" "$@" >"$work/stdout" 2>"$work/stderr"
    [ $? -eq "$wanted" ] && ! grep -q '^==' "$work/stderr"
    count $? "valgrind winavulor $*: another status than $wanted, or errors"
    rm -f "$work/part"
}

if command -v valgrind >/dev/null; then
    clean 0
    clean 0 help
    clean 0 show books/notation.book
    clean 0 cut books/notation.book "$work/part" --pile bottom/top concept:A
    clean 0 run scripts/marking.script
    clean 0 run scripts/writing.script
    clean 1 check books/badname.book
    clean 1 cut "$book" "$work/part" concept:Missing
    clean 1 cut "$book" "$work/none/part"
    clean 1 run nocall/mark-few.script
    clean 1 no such command
else
    echo 'there is no valgrind here, so nothing was run under it'
fi

echo "$good passed, $bad failed"
[ "$bad" -eq 0 ]
