#!/bin/sh
# Counts, at a commit, the places in src/ that a design pass looks at: tools/places.sh COMMIT [-v]. With -v it shows them.
# A pattern finds candidates; docs/DESIGN-PASS.md says what was found in reading them.
commit=${1:?usage: tools/places.sh COMMIT [-v]}
shown=${2:-}
cd "$(dirname "$0")/.." || exit 1

count() {
    label=$1
    pattern=$2
    found=$(git grep -nE "$pattern" "$commit" -- 'crates/*/src/*.rt' ':!crates/listing_cases/src/cases')
    printf '%5d  %s\n' "$(printf '%s' "$found" | grep -c .)" "$label"
    [ "$shown" = -v ] && [ -n "$found" ] && printf '%s\n' "$found" | sed 's/^/           /'
    return 0
}

count '1  numbers for kinds and refusals' '(code|kind) == [0-9]|-> u8$'
count '1  a flag with values beside it' '(marked|closing): bool'
count '1  an answer handed on by hand' '(None => None|Err\([a-z]+\) => Err|Ok\([a-z]+\) => Ok|Some\([a-z]\) => Some)|else \{$.*None|let Some\(.*else \{$'
count '2  two of a kind: the line and the chains' 'fn (line|chains)_[a-z_]+\(|fn open\(|^pub (trait Wire|struct Line|struct Letter)'
count '2  two of a kind: one queue and several' 'fn (get|push|pop|first|len|over)(<T: Copy>)?\(.*(T|Full|usize)>? *$'
count '3  loops' '^ *(while|for|loop) .*\{$'
count '3  loops that count by hand' 'for \([a-z]+, [a-z]+\) in .*enumerate|while .* < |for i in .*(count|last) \{|^ +[a-z]+ \+= (1|got);$'
count '4  equality, conversion, defaults, printing by hand' 'fn (same|is_for|number|no_chains)\(|const NONE:|::NONE|b.0. [+]|<= b.9.|> b.9.| as u32\)'
count '5  facts repeated in contracts' 'Sound self|< self\.(now|old)\.settings\.boards|requires .*(Fits|Linked) self|requires .*InRange|requires .*i < 25[67]|requires .*slot < 8'
count '5  parameters that travel together' 'W\.width W\.capacity W\.waiting|from: u32, to: u32|^ +from: u32,$|each: u32, b: u32'
count '6  a buffer with a length beside it, an arena of numbers' '^ +(len|used|pos|lent|next): usize,'
count '7  function tables, pointers, boxes' '\bdyn |Box<|fn\('"[a-z]"'*\) ->|impl Fn'
printf '%5d  8  lines in proofs/, %d files\n' \
    "$(git ls-tree -r --name-only "$commit" | grep '^crates/[a-z_]*/proofs/' | sed "s/^/$commit:/" | xargs -n 50 git show | wc -l)" \
    "$(git ls-tree -r --name-only "$commit" | grep -c '^crates/[a-z_]*/proofs/')"
