#!/bin/sh
# Measures marking and loading: instructions, counted by callgrind, and wall time, for a program and for the second
# implementation. Nothing is tested.
# Usage: sh second/bench.sh PROGRAM
#
# Two kinds of book are loaded, with 256, 512 and 1,024 axioms: `random`, over 300 names, and `chain`, in which every
# round of a stage marks one axiom. One name is seeded. A row `load` has what loading costs beside an empty script. A row
# with a pile has what one marking by it costs beside the same script without marks; that includes reading the line and
# printing the answer. Growth is the factor against half as many axioms. Ratios are of the program to the second; the
# one for stages is of what the pile costs beside `whole`, so without reading and printing.
[ $# -eq 1 ] || { echo "usage: sh second/bench.sh PROGRAM" >&2; exit 2; }
for tool in rustc valgrind; do
    command -v "$tool" >/dev/null || { echo "bench.sh: $tool is wanted" >&2; exit 2; }
done
case $1 in
*/*) program=$1 ;;
*) program=./$1 ;;
esac
work=$(mktemp -d) || exit 2
trap 'rm -rf "$work"' EXIT
sh "$(dirname "$0")/build.sh" "$work" || exit 2

# The instructions of a run.
count() { # PROGRAM SCRIPT
    valgrind --tool=callgrind --callgrind-out-file="$work/callgrind" "$1" run "$2" >"$work/answers" 2>"$work/said"
    if [ "$(grep -c '^ok' "$work/answers")" -ne "$(wc -l <"$2")" ] || ! grep -q 'Collected : ' "$work/said"; then
        echo "bench.sh: $1 does not perform the script" >&2
        exit 2
    fi
    sed -n 's/.*Collected : //p' "$work/said"
}

# The time of a run in nanoseconds.
clock() { # PROGRAM SCRIPT
    begin=$(date +%s%N)
    "$1" run "$2" >/dev/null
    echo $(($(date +%s%N) - begin))
}

# The shortest times of two scripts, run in turn five times or as often as half a second allows.
clock_both() { # PROGRAM SCRIPT SCRIPT
    until=$(($(date +%s%N) + 500000000))
    runs=0
    while [ $runs -lt 5 ] || [ "$(date +%s%N)" -lt $until ]; do
        echo "$(clock "$1" "$2") $(clock "$1" "$3")"
        runs=$((runs + 1))
    done | awk '
        NR == 1 || $1 < plain { plain = $1 }
        NR == 1 || $2 < other { other = $2 }
        END { printf "%d %d\n", plain, other }'
}

# For each program, the instructions of both scripts and the times of both; for the time the second may be another.
costs() { # PLAIN COUNTED CLOCKED
    for which in program second; do
        run=$program
        [ $which = program ] || run=$work/second
        [ -e "$1.$which" ] || count "$run" "$1" >"$1.$which" || exit 2
        cat "$1.$which"
        count "$run" "$2" || exit 2
        clock_both "$run" "$1" "$3"
    done >"$work/costs"
    tr '\n' ' ' <"$work/costs"
}

# The script at `plain` with so many marks behind it.
marked() { # TIMES
    cat "$plain"
    for _ in $(seq "$1"); do echo "mark $pile $axioms $names"; done
}

# Rows: book, call, axioms, how many calls are counted and clocked together, costs.
rows() {
    : >"$work/empty"
    for book in random chain; do
        # a chain takes longer, so fewer marks are clocked
        clocked=100
        [ $book = random ] || clocked=10
        for axioms in 256 512 1024; do
            names=300
            [ $book = random ] || names=$axioms
            "$work/generate" --book $book $axioms "$work/load" || exit 2
            costs=$(costs "$work/empty" "$work/load" "$work/load") || exit 2
            echo "$book load $axioms 1 1 $costs"
            plain=$work/$book-$axioms
            { cat "$work/load" && echo 'seed 0' && echo freeze; } >"$plain"
            for pile in whole bottom top top/bottom bottom/top; do
                marked 2 >"$work/few"
                marked $clocked >"$work/many"
                costs=$(costs "$plain" "$work/few" "$work/many") || exit 2
                echo "$book $pile $axioms 2 $clocked $costs"
            done
        done
    done
}

rows >"$work/rows" && awk '
function ratio(a, b) { return b > 0 ? sprintf("%.2f", a / b) : "-" }
function round(a) { return sprintf("%.0f", a) }
{
    row = $1 " " $2 " " $3
    first[row] = ($7 - $6) / $4; first_time[row] = ($9 - $8) / $5 / 1000
    second[row] = ($11 - $10) / $4; second_time[row] = ($13 - $12) / $5 / 1000
}
END {
    line = "%-7s %-11s %6s  %12s %6s  %12s %6s  %5s %6s  %9s %9s  %5s\n"
    printf line, "", "", "", "instructions", "", "", "", "", "", "microsec.", "", ""
    printf line, "book", "call", "axioms", "program", "growth", "second", "growth", "ratio", "stages", "program", "second", "ratio"
    split("random chain", books); split("load whole bottom top top/bottom bottom/top", calls)
    for (b = 1; b <= 2; b++) for (c = 1; c <= 6; c++) for (axioms = 256; axioms <= 1024; axioms *= 2) {
        row = books[b] " " calls[c] " " axioms
        half = books[b] " " calls[c] " " axioms / 2
        whole = books[b] " whole " axioms
        growth = second_growth = stages = ""
        if (half in first) {
            growth = ratio(first[row], first[half])
            second_growth = ratio(second[row], second[half])
        }
        if (calls[c] ~ /top|bottom/) stages = ratio(first[row] - first[whole], second[row] - second[whole])
        printf line, books[b], calls[c], axioms, round(first[row]), growth, round(second[row]), second_growth, \
            ratio(first[row], second[row]), stages, round(first_time[row]), round(second_time[row]), \
            ratio(first_time[row], second_time[row])
    }
}' "$work/rows"
