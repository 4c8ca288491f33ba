#!/bin/sh
# Cuts parts out of every example book, and loads and cuts them again.
# Usage: sh tests/parts.sh PROGRAM
[ $# -eq 1 ] || { echo "usage: sh tests/parts.sh PROGRAM" >&2; exit 2; }
case $1 in
/*) program=$1 ;;
*) program=$(pwd)/$1 ;;
esac
cd "$(dirname "$0")" || exit 2
work=$(mktemp -d) || exit 2
full=$work.full
trap 'rm -rf "$work" "$full"' EXIT

. ./counting.sh

cut() { # WORDS OF THE COMMAND
    "$program" cut "$@" >"$work/stdout" 2>"$work/stderr"
}

# No file but those of this script is left in the folder.
clean() {
    [ "$(ls "$work" | grep -v -e '^stdout$' -e '^stderr$' | wc -l)" -eq 0 ]
}

# A good book: its part through the whole extractor shows the same names and axioms, and cut again it is the same file.
again() { # BOOK
    cut "$1" "$work/part" --pile whole && "$program" show "$1" >"$work/stdout" && "$program" show "$work/part" | cmp -s - "$work/stdout"
    count $? "$1: its part shows another book"
    rm -f "$work/part"
    cut "$1" "$work/once" --pile whole && cut "$work/once" "$work/twice" --pile whole && cmp -s "$work/once" "$work/twice"
    count $? "$1: its part is not written again"
    rm -f "$work/once" "$work/twice"
}

# A book in the writer's order: the part is the book's own file.
same() { # BOOK
    cut "$1" "$work/part" --pile whole && cmp -s "$1" "$work/part"
    count $? "$1: the part is not the file"
    rm -f "$work/part"
}

# A cut that is refused ends with status 1 and a message, and leaves no file behind.
refused() { # WORDS OF THE COMMAND
    ! cut "$@" && [ -s "$work/stderr" ] && [ ! -s "$work/stdout" ] && clean
    count $? "cut $*: it is not refused, or leaves a file"
}

# A cut prints what its file in `parts` has.
tells() { # FILE WORDS OF THE COMMAND
    expected=$1
    shift
    cut "$@" && cmp -s "$work/stdout" "$expected"
    count $? "cut $*: other text than in $expected"
    rm -f "$work/part"
}

# Each number from 0 below 1,024.
numbers() {
    number=0
    while [ $number -lt 1024 ]; do
        echo $number
        number=$((number + 1))
    done
}

# A book with all that there is room for: 1,024 concepts whose labels have 32 bytes, all seeded, and 1,024 axioms whose
# bodies have 32.
full_book() {
    numbers | while read -r number; do printf '\041\000\001\000\000%032d' "$number"; done
    numbers | while read -r number; do
        printf "\\002\\000\\040\\000\\$(printf %03o $((number % 256)))\\$(printf %03o $((number / 256)))"
    done
    numbers | while read -r number; do
        printf '\040\000\020\000\004\004\005\005\002\000\000\002\000\000\005\002\000\000\002\000\000'
        printf '\005\005\002\000\000\002\000\000\005\002\000\000\002\000\000'
    done
}

pair=top/bottom
four=$pair/$pair/$pair/$pair
for book in books/substation.book books/notation.book books/locality.book; do
    again "$book"
    for pile in bottom top top/bottom bottom/top top/top bottom/top/bottom "$four/$four"; do
        cut "$book" "$work/part" --pile "$pile" && "$program" check "$work/part" >"$work/stdout" 2>"$work/stderr"
        count $? "$book: its part through $pile is not loaded"
        rm -f "$work/part"
    done
done
same books/substation.book
full_book >"$full"
same "$full"
# A label that has a colon.
printf '\004\000\001\000\000a:b' >"$full"
cut "$full" "$work/part" concept:a:b && grep -q 'a:b' "$work/stdout"
count $? 'cut for a label with a colon: it is not found'
rm -f "$work/part"
tells parts/bottom.stdout books/substation.book "$work/part"
tells parts/whole.stdout books/substation.book "$work/part" --pile whole
tells parts/top-over-bottom.stdout books/notation.book "$work/part" --pile top/bottom role:s concept:A
tells parts/bottom-over-top.stdout books/notation.book "$work/part" --pile bottom/top
tells parts/top.stdout books/locality.book "$work/part" --pile top
tells parts/sixteen.stdout books/staircase.book "$work/part" --pile "bottom/$four/$pair/$pair/$pair/top"
refused books/badname.book "$work/part"
refused books/cut.book "$work/part"
refused books/empty.book "$work/part"
refused books/missing.book "$work/part"
refused books/substation.book "$work/part" concept:Missing
refused books/substation.book "$work/part" Relay
refused books/substation.book "$work/part" --pile middle
refused books/substation.book "$work/part" --pile "$four/$four/top"
refused books/substation.book "$work/missing/part"
refused books/substation.book --pile top
refused books/substation.book books/substation.book

# A file that is there already is left as it is.
echo kept >"$work/part"
! cut books/substation.book "$work/part" && [ "$(cat "$work/part")" = kept ]
count $? 'cut to a file that is there: the file is not kept'
rm -f "$work/part"

# Where the report cannot be printed, no part stays.
if [ -e /dev/full ]; then
    ! "$program" cut books/substation.book "$work/part" >/dev/full 2>"$work/stderr" && clean
    count $? 'cut with no room for its report: it leaves a file'
fi

echo "$good passed, $bad failed"
[ "$bad" -eq 0 ]
