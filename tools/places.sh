#!/bin/sh
# Counts, by pattern, the places in crates/*/src that the points of docs/DESIGN-PASS.md are about; with -l it lists them.
cd "$(dirname "$0")/.." || exit 1
show() { # a point's name, then the places, one a line
    if [ "$list" ]; then echo "== $1"; cat; else printf '%-62s %5d\n' "$1" "$(wc -l)"; fi
}
lines() { grep -nE "$1" crates/*/src/*.rt | sed 's#crates/##'; }
functions() { # functions whose parameters match
    perl -0ne 'while (/fn (\w+)(?:<[^>]*>)?\(([^{]*?)\)\s*(?:->|requires|ensures|\{|\n)/g) { my ($f, $p) = ($1, $2); print "$ARGV $f\n" if $p =~ /'"$1"'/s }' crates/*/src/*.rt | sed 's#crates/##'
}
facts() { # predicates that three or more clauses begin with
    grep -hoE '(requires|ensures)( [a-z_0-9]+)? \{ \(?[A-Z][A-Za-z]+ ' crates/*/src/*.rt | grep -oE '[A-Z][A-Za-z]+ $' | sort | uniq -c | awk '$1 >= 3 { print $2, $1 }'
}
list=
[ "$1" = -l ] && list=1
lines '^(pub )?enum ' | show '1 enums'
lines '^ *(pub )?const [A-Z_0-9]+: (u8|usize|u32|u64) = [0-9]+;' | show '1 constants that are one number'
lines '^ *// .*(1 if |, else 0|if there is none|if none |, 0 if |none does|where there is none|is missing)' | show '1 comments on a number that stands for a case'
lines '^ +(pub )?[a-z_]+: bool,$' | show '1 flags in structs'
lines '^ *(pub )?fn (of_[a-z]+|same|differ|untouched|print|print_number|is_below|byte_at|entry)\(' | show '2 functions of names that stand more than once'
lines '^ *while [a-z_]+ <=? ' | show '3 loops that count an index'
lines "^ *('[a-z]+: )?(while|loop)\b" | grep -vE 'while [a-z_]+ <=? ' | show '3 other while and loop'
lines '^ *([a-z_]+): \1,$' | show '4 fields written twice'
lines '^ *(pub )?fn (same|differ|untouched|widened|wide|is_above|lesser|higher|bumped|more|named|print|print_number|print_row|print_name|length_of|leave_unused|none|accepted|spread)\(' | show '4 equality, order, copying, printing by hand'
lines ' as (usize|u64|u32|u8|u16)\b' | show '4 casts'
functions 'marks: &\[u8\],\s*moves: &\[u8\]' | show '5 functions with marks and moves side by side'
facts | show '5 facts that three or more clauses begin with'
functions '(values|members|begins|room|row)\w*: &(mut )?\[[^\]]*\].*count: usize' | show '6 slices with a count beside'
lines '^ *match \(?([a-z_]+\.)*(call|mode|due|wanted|turn|self\.mode)\b' | show '7 matches on a kind of step'
cat crates/*/proofs/*/Answers.antt crates/*/proofs/*/*/Answers.antt crates/*/proofs/*/*/*/Answers.antt 2>/dev/null | show '8 lines of answers'
