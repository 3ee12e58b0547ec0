#!/bin/bash
# Counts the places that docs/DESIGN-PASS.md speaks of, in the sources as they stand: tools/places.sh [-l], at the top.
# With -l each line is printed too. Comments are passed over.
[ "$1" = -l ] && list=1
show() {
    out=$(find crates -path '*/src/*' -name '*.rt' -not -path '*/out/*' | sort | xargs grep -nE -e "$2" | grep -vE '^[^:]*:[0-9]*: *//')
    printf '%-62s %s\n' "$1" "$(printf '%s' "$out" | grep -c .)"
    [ -z "$list" ] || printf '%s\n' "$out" | sed 's/^/        /'
}
show '1a own enums' '\benum '
show '1b calls that answer a bool' '-> bool'
show '1c a refusal inside an Option' 'Option<Refusal>'
show '1d a number for no node' '\bNONE\b'
show '1e an error handed on by hand' 'Err\(.*\) => *(Err|\{)|Err\(AllocError\)|ok_or\(AllocError\)'
show '2a numbers of bytes taken apart and put together' '(from|to)_be_bytes'
show '2b lengths of images in sums and tests' 'image_len\(\)'
show '2c a function beside a constant of the same value' '\bkind_mark\b'
show '3a loops' '^ *(.[a-z]*: )?(while|loop|for) ?.*\{\}?$'
show '3b parts of slices by index' '&(mut )?[a-z_.]*\[[^]]*\.\.|[a-z]\[[0-9]\.\.'
show '4a comparing and converting by hand' 'fn (same|compare|precedes|of|number|kind_of|parts|load_refusal|cover|digit_of|digits_of|is_word)\b'
show '4b printing by hand' 'fn push_'
show '4c From, TryFrom, Display and Iterator' '^impl.* (fmt::)?(From|TryFrom|Display|Iterator)\b.* for '
show '4d derived comparisons' 'derive\(.*PartialEq'
show '5a horizon and the row before, as parameters' '\(?horizon: u32|before: Option<Row'
show '5b allocator beside what it serves' 'heap: Global'
show '5c slot, entry, side and subtrees, as parameters' 'at: usize|near: usize|far: usize'
show '5d facts about a value in clauses' '(requires|ensures).*(Holds|Sound |Ready |told K)'
show '6a a place beside a buffer, a pair of indices' '(at|start|line|next): usize|room: '
show '6b links between records' '(left|right|root|slot): (usize|Option<usize>|Link)([^:]|$)'
show '7 matches on a kind, side or verdict' 'match (kind|self|side|verdict|word)\b'
printf '%-62s %s\n' '8a answer files' "$(find crates -name Answers.antt -not -path '*/out/*' | grep -c .)"
printf '%-62s %s\n' '8b lines of proofs' "$(find crates -path '*/proofs/*' -name '*.antt' -not -path '*/out/*' | xargs cat | grep -c '')"
