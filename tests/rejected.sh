#!/bin/sh
# Shows that the check rejects programs that use a draft or a frozen book as the other, by their types alone.
# In a temporary copy of `extraction` and the crates below it, a small library that depends on `book` and `extraction` is
# accepted, and then each wrong variant of it is refused, with the expected error at the expected line.
# Usage: sh tests/rejected.sh
root=$(CDPATH='' cd -- "$(dirname -- "$0")/.." && pwd) || exit 2
work=$(mktemp -d) || exit 2
trap 'rm -rf "$work"' EXIT

# What is proved already is taken over, so that only the small library is checked.
mkdir -p "$work/crates/misuse/src" || exit 2
for crate in refusals bounded vocabulary terms locality codec book extraction; do
    cp -R "$root/crates/$crate" "$work/crates" || exit 2
    grep "^$crate:" "$root/crates.txt" >>"$work/crates.txt" || exit 2
done
echo 'misuse: extraction book' >>"$work/crates.txt"

cat >"$work/right.rt" <<'END'
use book::Draft;
use book::Frozen;
use extraction::Extractor;
use extraction::Tables;
use extraction::Whole;
use extraction::mark;
use std::alloc::AllocError;
use std::alloc::Global;

pub fn reopened(heap: Global) -> Result<bool, AllocError> {
    let draft = Draft::open(heap)?;
    let frozen = draft.freeze();
    let mut again = frozen.reopen();
    Ok(again.name(0, b"Relay").is_ok())
}

pub fn marked(heap: Global) -> Result<bool, AllocError> {
    let draft = Draft::open(heap)?;
    let settled = draft.freeze();
    let mut axioms = [0; 4];
    let mut names = [0; 4];
    Ok(mark(settled.at_rest(), &Whole, &mut axioms, &mut names).is_ok())
}

pub fn extracted<E: Extractor>(frozen: &Frozen, pile: &E, axioms: &mut [u8], names: &mut [u8]) -> u32 {
    let mut tables = Tables::new();
    let rounds = pile.extract(frozen.at_rest(), &mut tables);
    tables.write(frozen.at_rest(), axioms, names);
    rounds
}
END

. "$root/tests/counting.sh"

detail() {
    grep -v -e ': proved' -e '^rt: ' -e '^logic ' -e '^statements ' "$work/said" | head -n 8
}

# Checks the library as it is now; what the check says is kept.
check() {
    (cd "$work/crates/misuse" && rt check) >"$work/said" 2>&1
}

accepted() { # WORDS
    cp "$work/right.rt" "$work/crates/misuse/src/lib.rt"
    check
    count $? "$1: it is not accepted"
}

# A variant of the library by a sed command has to be refused with this error at this line.
refused() { # WORDS COMMAND LINE ERROR
    sed "$2" "$work/right.rt" >"$work/crates/misuse/src/lib.rt"
    ! check && grep -q "^src/lib\.rt:$3:[0-9]*: error\[$4\]" "$work/said"
    count $? "$1: no error[$4] at line $3"
}

accepted 'naming after reopening, marking and extracting after freezing'
refused 'naming on a frozen book' 's/frozen\.reopen()/frozen/' 14 unknown-method
refused 'filing on a frozen book' 's/frozen\.reopen()/frozen/; s/name(0, b"Relay")/file(19, b"\\x00\\x00")/' 14 unknown-method
refused 'using a draft after freezing it' '11,14s/let draft/let mut draft/; s/again\.name/draft.name/' 14 borrow-e0382
refused 'reopening a draft' 's/frozen\.reopen()/draft.reopen()/; 12s/draft\.freeze()/()/' 13 unknown-method
refused 'marking a draft' 's/let settled = draft\.freeze()/let settled = draft/; s/settled\.at_rest/settled.book/' 22 mismatched-types
refused 'extracting from a draft' 's/frozen: &Frozen/draft: \&Draft/; s/frozen\.at_rest/draft.book/' 27 mismatched-types

echo "$good passed, $bad failed"
[ "$bad" -eq 0 ]
