#!/bin/sh
# Counts, at a commit, the lines of src/ among which docs/DESIGN-PASS.md found the places of each point.
#
# usage: tools/count_places.sh [COMMIT] [--lines]      at the top of the repository; --lines prints the lines themselves
commit=${1:-HEAD}
lines=$2

hits() {
    found=$(git grep -nE "$3" "$commit" -- crates/ | sed "s/^$commit:crates.//" | grep '^[a-z0-9]*/src/[a-z_]*\.rt:' | grep -vE '/src/[a-z_]*\.rt:[0-9]+:(ghost use|use|\s*//)')
    printf 'point %s, %s: %s\n' "$1" "$2" "$(printf '%s' "$found" | grep -c .)"
    if [ "$lines" = --lines ]; then printf '%s\n' "$found"; fi
}

hits 1 'enums' '^\s*(pub(\([a-z]+\))? )?enum '
hits 1 'flags beside a value' '[a-z_]+: bool,|, bool\)'
hits 1 'results that carry a theorem' '\) -> u8$'
hits 1 'an allowance as a number' 'allowance: u8'
hits 2 'functions' '\bfn [a-z_]+'
hits 3 'loops' '^\s*(for|while|loop)\b.*\{$'
hits 3 'totals counted up' 'saturating_add\(1\)'
hits 4 'impls by hand' '^\s*impl(<[^>]*>)? ([a-z:]*)(Display|Debug|Error|From<.*>|PartialEq|Eq|Ord|Clone|Copy|Default|TryFrom<.*>) for'
hits 4 'conversions and names by hand' '\bfn (name|[a-z]+_numbered|raw_key|read_entry)\b'
hits 4 'casts' ' as (u64|u32|usize|u16|u128)\b'
hits 5 'preconditions' '^\s*requires\b'
hits 5 'that ends reach' '\bReaches\b'
hits 6 'lengths beside a buffer' '^\s*(pub(\([a-z]+\))? )?(len|count): usize,'
hits 6 'arrays in a struct' '^\s*(pub(\([a-z]+\))? )?[a-z]+: \[[a-z0-9]+; [A-Z0-9_]+\],'
hits 7 'matches' '\bmatch\b.*\{$'
hits 7 'let-else with unreachable' 'unreachable'
