#!/usr/bin/env bash
# Lists places in src/ where an older form may stand, under the number of the form in docs/DESIGN-PASS.md: one line a place.
set -euo pipefail
cd "$(dirname "$0")/.."
shopt -s globstar
src=(crates/*/src/**/*.rt)
list() { grep -nE "$2" "${src[@]}" | sed -E "s|^|$1 |; s| +| |g" || true; }

# Enums, and flags, options and numbers that tell why something is refused.
list 1 '^(pub(\([a-z]+\))? )?enum '
list 1 'Option<(Refusal|Malformed)'
list 1 '[-]> Option<(usize|Placed|Counts|\(Counts, Endings\))>'
list 1 'Result<usize, usize>|number: u8|sink: bool'
list 1 'fn is_short'

# Loops that count by hand.
list 3 '^ *while '
list 3 '^ *[a-z_.]+ [+-]= 1;'
list 3 '^ *for [a-z_]+ in [^{]*\.\.'
list 3 '^ *(for [^{]* in |loop)'

# Conversions, equality and printing.
list 4 'fn (new|read|row|number|entry_of_word|joined|ordered|decode|pair_index|pair_place|same[a-z_]*|eq|clone|fmt)[<(]'
list 4 '^ *match self \{'

# Functions with six parameters and more, each on a line of its own.
awk 'FNR==1{n=0} /^ *(pub(\([a-z]+\))? )?fn .*\($/{name=$0; line=FNR; n=0; on=1; next} on&&/^ *\)/{if(n>=6){sub(/^ +/,"",name); print "5 " FILENAME ":" line ":" name " " n} on=0} on&&/,$/{n++}' "${src[@]}"
# Facts that are asked for, with how many contracts ask for each.
grep -hoE 'requires( [a-z_]+)? \{.*\}$' "${src[@]}" | sed -E 's/^requires( [a-z_]+)? //' | sort | uniq -c | sort -rn | awk '$1>=3{$1=$1; print "5 fact " $0}'

# Buffers with a count beside them, and parts of them.
list 6 '^ *(count|filled|found|len): usize,?$'
list 6 '\[0\.\.|split_at_mut'

# Choices of a step.
list 7 'match (way|order|letter|bytes\[0\]|hand)( |\[|\{)'
list 7 'fn\(|dyn |impl Fn'
