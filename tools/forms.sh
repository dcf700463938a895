#!/bin/sh
# Counts the lines of src/ that may be an older form, point by point: a line found is a place to look at, not a verdict.
# With a word, as `tools/forms.sh 3a`, it prints the lines of that count.
cd "$(dirname "$0")/.." || exit 1

show() {
    if [ "$only" = "$1" ]; then
        grep -nE "$3" crates/*/src/*.rt
    elif [ -z "$only" ]; then
        printf '%-3s %4d  %s\n' "$1" "$(cat crates/*/src/*.rt | grep -cE "$3")" "$2"
    fi
}

only=$1
show 1a 'enums' '^ *(pub(\([a-z]+\))? )?enum '
show 1b 'numbers for kinds, phases or refusals' '(kind|number|phase|reason): (u8|u32)|(with_number|number)\(\)|(Kind|Phase)::with_number|[!=]= (1|6|9|10)\b.*\{|Phase\([0-9]\)|Result<u32'
show 1c 'flags beside a value, and numbers that stand for none' '[a-z]+: bool|place == 0|unwrap_or\(0'
show 2 'functions (twins are found with the tool that lists runs of like lines, and by reading)' '^ *(pub(\([a-z]+\))? )?(final )?fn '
show 3a 'loops' '^ *(while|for) .*\{$'
show 3b 'loops over a range of numbers' '^ *for _?[a-z]+ in \(?[^ ]*\.\.'
show 3c 'while loops' '^ *while '
show 3d 'counters by hand' '^ *[a-z_.]+ (\+|-)= |saturating_add\(|wrapping_add\('
show 4 'equality, conversion, printing by hand' 'fn (equal|number|with_number|reason|place|get|report|layer_of|print_[a-z]+|word|numbers_of)\b|::equal'
show 5a 'clauses that name what holds of every ceremony' '^ *(requires|ensures).*Kept G\.meaning'
show 5b 'clauses that name what holds of a record of a kind' '^ *(requires|ensures).*(OfKind|is_indexed)'
show 5c 'clauses that hold a lender to be the same' '^ *ensures.*ghost_name'
show 5d 'lines that name a type for the checker alone' '^ *let _of: '
show 6 'buffers with a length beside, tables of numbers' '\[[A-Za-z0-9_x]+; [0-9]+\]|\) -> usize$|used: usize'
show 7 'switches' '^ *match '
