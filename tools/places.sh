#!/bin/sh
# The places that docs/DESIGN-PASS.md counts: `sh tools/places.sh COMMIT` prints a number for each command, `sh tools/places.sh COMMIT all` the places too.
commit=${1:-HEAD}
shown=${2:-counts}

lines() {
    git grep "$@" "$commit" -- crates | grep '/src/' | sed "s/^$commit:crates.//"
}

report() {
    found=$(cat)
    printf '%-58s %s\n' "$1" "$(printf '%s' "$found" | grep -c .)"
    [ "$shown" = all ] && [ -n "$found" ] && printf '%s\n' "$found" | sed 's/^/    /'
    return 0
}

lines -nE '^ *(pub(\(crate\))? )?enum ' | report '1 own enums'
lines -nE -e '-> (u8|Result<bool|Result<u8)' | report '1 functions that answer a small number or a flag in a Result'
lines -nE ': bool\b' | report '1 fields and parameters that are flags'
lines -nE '(next|over): ' | report '1 fields where a number or a flag says that there is none'
git grep -hoE '\bfn [a-z_]+' "$commit" -- crates | sort | uniq -d | report '2 names that several functions have'
lines -nE '^ *(for [a-z_]+ in [^{]*\.\.|while )' | report '3 loops over a range, and while loops'
lines -nE '(\+|-)= 1[;,]?$' | report '3 counters'
lines -nE '\b([a-z_]+): [a-z_]+(\[[^]]*\])?\.\1,' | report '4 structs copied field by field'
lines -nE '\bfn (same[a-z_]*|is_letter|is_digit|is_name_byte|names_agree|kinds_agree|is_called|[a-z]+_token|[a-z_]*_name|letter[a-z_]*|word|code[a-z_]*)\(' | report '4 comparisons and conversions'
lines -nE '(len|length|byte|start|next|n|count|width|value|digit)(\(\))? as (u8|u16|u32|i64)' | report '4 numbers cut to a type'
git grep -hE '^ *(requires|ensures) ' "$commit" -- crates | sed 's/^ *//' | sort | uniq -c | awk '$1 >= 3' | report '5 clauses that three functions or more repeat'
lines -nE '(pub(\(crate\))? )?[a-z]+: (\[[A-Za-z0-9]+; [A-Z_]+\]|Vec<)' | report '6 fields that are fixed arrays or vectors'
lines -nE '&(mut )?\[Node\]' | report '6 parameters that are an arena of nodes'
lines -nE 'match \(?(listed|leaf|level|call|operator|wanted)\b' | report '7 switches on what is to be done'
for kind in Answers Invariants; do
    git ls-tree -r --name-only "$commit" -- crates | grep "/proofs/.*/$kind.antt" | report "8 files of proofs: $kind"
done
printf '%-58s %s\n' '8 lines of proofs' "$(git grep -hc '' "$commit" -- ':(glob)crates/*/proofs/**' | awk '{ s += $1 } END { print s }')"
printf '%-58s %s\n' 'lines of src' "$(git grep -hc '' "$commit" -- ':(glob)crates/*/src/**' | awk '{ s += $1 } END { print s }')"
