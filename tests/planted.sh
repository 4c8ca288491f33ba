#!/bin/sh
# Plants bugs in a copy of the crates, one at a time, and tells for each whether the check refuses it, else whether a test
# from outside finds it.
# Usage: sh tests/planted.sh [--why] [CRATE | CRATE/BUG ..]     (every bug in tests/planted, if none is named)
#
# A bug is an edit in tests/planted/CRATE, in the form of the edits in must-fail/, which tests/edits.py tells: one text or
# several, each with the file that it stands in once, and with what stands in its place. For each bug it prints `refused`,
# `found by a test`, `survived`, or `bad`, and at the end how many there were of each. With --why it prints below a bug that
# is refused what the check says first, and below a bad one why it could not be tried. It takes some seconds for a bug that
# is refused, and minutes for one that is not, since the program is proved and built with it; so it is no part of .ci/run.
root=$(CDPATH='' cd -- "$(dirname -- "$0")/.." && pwd) || exit 2
why=
[ "${1-}" != --why ] || { why=1 && shift; }
cd "$root/tests/planted" || exit 2
[ $# -gt 0 ] || set -- *
for named; do
    [ -d "$named" ] || [ -f "$named.edit" ] || { echo "planted.sh: there is no $named in tests/planted" >&2; exit 2; }
done
work=$(mktemp -d) || exit 2
trap 'rm -rf "$work"' EXIT
cp "$root/crates.txt" "$work" && cp -R "$root/crates" "$work" || exit 2
rm -rf "$work"/crates/*/out "$work"/crates/*/must-fail

# Tells of a bug, and below it what was said of it, if that is wanted.
told() { # CRATE/BUG VERDICT SAID
    echo "$1: $2"
    [ -z "$why" ] || [ -z "$3" ] || echo "    $3"
}

# The program that is built with a bug, tested from outside.
tested() { # CRATE BUG
    rm -rf "$work/kept" && cp -R "$work/crates/$1" "$work/kept" || exit 2
    python3 "$root/tests/edits.py" --apply "$work/crates/$1" "$1/$2.edit" || exit 2
    verdict='survived'
    said=
    if (cd "$work/crates/winavulor" && rt run -- help) >"$work/said" 2>&1; then
        for test in run cli parts; do
            sh "$root/tests/$test.sh" "$work/crates/winavulor/out/winavulor" >"$work/said" 2>&1 || verdict='found by a test'
        done
    else
        verdict='refused'
        said=$(grep -m 1 'error' "$work/said")
    fi
    rm -rf "$work/crates/$1" && mv "$work/kept" "$work/crates/$1" || exit 2
    told "$1/$2" "$verdict" "$said"
}

for named; do
    crate=${named%%/*}
    mkdir "$work/crates/$crate/must-fail" || exit 2
    if [ "$named" = "$crate" ]; then
        cp "$crate"/*.edit "$work/crates/$crate/must-fail" || exit 2
    else
        cp "$named.edit" "$work/crates/$crate/must-fail" || exit 2
    fi
    (cd "$work" && rt must-fail "$crate") >"$work/tried" 2>&1
    for edit in "$work/crates/$crate/must-fail"/*.edit; do basename "$edit" .edit; done >"$work/bugs"
    rm -rf "$work/crates/$crate/must-fail"
    while read -r bug; do
        said=$(grep -m 1 "must-fail $crate/$bug\.edit: " "$work/tried" | sed "s|.*must-fail $crate/$bug\.edit: ||")
        case $said in
        'refused, as it must be: '*) told "$crate/$bug" refused "${said#refused, as it must be: }" ;;
        refused*) told "$crate/$bug" refused "${said#refused, }" ;;
        'NOT REFUSED'*) tested "$crate" "$bug" </dev/null ;;
        *) told "$crate/$bug" bad "${said:-$(tail -n 1 "$work/tried")}" ;;
        esac
    done <"$work/bugs"
done | tee "$work/all"

for verdict in refused 'found by a test' survived bad; do
    echo "$verdict: $(grep -c "^[^ ].*: $verdict\$" "$work/all")"
done
