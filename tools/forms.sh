#!/usr/bin/env bash
# Counts the places of docs/DESIGN-PASS.md in a tree's src/ folders, point by point: tools/forms.sh [TREE]
set -u
cd "${1:-$(dirname "${BASH_SOURCE[0]}")/..}" || exit 2

sources() { find crates -path '*/src/*' -name '*.rt' -not -path '*/out/*' | sort; }
proofs() { find crates -path '*/proofs/*' -name '*.antt' -not -path '*/out/*' | sort; }
lines() { sources | xargs grep -hE "$1"; }
count() { printf '%6d  %s\n' "$(wc -l)" "$1"; }

lines '^(pub(\(crate\))? )?enum ' | count '1a enums'
lines '^    (pub(\(crate\))? )?(number: u32|fits: bool|sound: bool|outside: usize|next: u64),$' | count '1b fields: a number or a flag beside a value'
lines '(refused|unshaped|refuse|uncounted|nothing|stopped|unseen|unopened|Ranking::Refused)\((number|[0-9]+|[a-z]+\.number)[,)]' | count '1c refusals made by number'
lines 'number (==|!=) 0|0 < [a-z]+\.number|\.(fits|sound)([^(a-z_]|$)' | count '1d looks whether there is one'
lines '(which|kind) == [0-9]' | count '1e kinds by number'
lines '^ *(while|loop)\b' | count '3a while and loop'
lines '^ *for ' | count '3b for'
lines '\.iter\(\)|\.zip\(|\.fold\(|\.position\(|\.all\(|\.any\(|\.filter\(|copy_from_slice|starts_with|\.contains' | count "3c lines with an iterator or a slice's method"
lines '\b(wide|lesser|over|lower|higher|chosen|both|one|differs|clamp)\(' | grep -vE '^ *(pub(\(crate\))? )?fn ' | count '4a calls of conversions and orders by hand'
lines '^(pub(\(crate\))? )?fn (wide|lesser|over|lower|higher|chosen|both|one|differs|copy|equal)\(' | count '4b such functions'
lines '^ *impl .*From' | count '4c From'
lines 'derive\(.*(Debug|PartialEq|Drop)' | count '4d derives beyond Clone and Copy'
lines 'ghost [a-z_]+: \{' | count '5a ghost fields'
lines '^impl' | count '5b impl blocks'
lines 'asked: Conversion' | count '7a switches on what to run'
sources | xargs cat | count 'lines in src/'
proofs | xargs cat | count 'lines in proofs/'
proofs | grep -E 'proofs/.+/(Answers|Invariants|Proof)\.antt$' | xargs cat | count "lines of functions' own proofs"
find crates -path '*/must-fail/*' -name '*.edit' -not -path '*/out/*' | count 'must-fail edits'
find crates -path '*/more-edits/*' -name '*.edit' -not -path '*/out/*' | count 'more edits'
