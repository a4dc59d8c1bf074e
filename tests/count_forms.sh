#!/bin/sh
# Lists the lines of src/ where an older form of code could stand, by the points of docs/DESIGN-PASS.md, and counts them.
cd "$(dirname "$0")/.." || exit 1

find_lines() {
    printf '%s: ' "$1"
    lines=$(grep -rnE --include='*.rt' "$2" crates/*/src | grep -vE '^[^:]*:[0-9]*:\s*//')
    printf '%s\n' "$lines" | grep -c .
    [ -z "$lines" ] || printf '%s\n' "$lines" | sed -E 's/^crates\//    /; s/:[0-9]+:\s*/  /'
}

find_lines '1 enums' '^\s*(pub(\(crate\))? )?enum '
find_lines '1 rules by number' 'combine\([0-9]+,'
find_lines '1 values that mean none' '(handle|generation|answer): 0\b|== self\.limit|byte: u8'
find_lines '2 functions by name' '^\s*(pub(\(crate\))? )?fn '
find_lines '3 loops' '^\s*(while|loop|for) '
find_lines '4 equality, copies, conversions' 'fn (same\w*|is_for|is_node|both_zero|named|of|of_squares|widen|lowest_handles|drop_lowest|repeat_top)\b'
find_lines '4 printing' 'refused \{|"\{\w\} \{\w\} |form opens|: qubits \{'
find_lines '6 arrays' '\[\w+; \w+\]'
find_lines '6 words handed over' 'words: Vec<'
find_lines '7 steps chosen by a kind' '^\s*match (self|kind\(.*\)|figure|operand|carry|question_name\(.*\)\?|keyword\(.*\)\?|name|fault) \{'

echo '5 clauses that stand three times or more, in all crates'
grep -rhoE --include='*.rt' '(requires|ensures)( [a-z_]+)? \{.*\}' crates/*/src |
    sed -E 's/^(requires|ensures)( [a-z_]+)? //; s/(self|store|cells)\.(old|now|new)/\1/g' |
    sort | uniq -c | sort -rn | awk '$1 >= 3'
