#!/usr/bin/env bash
# Whether docs/PROOFS.md, in "Every public call", names each public function of each library: a function that is added
# has to say there how it is refused, and what shows it. Laws have a file of their own, and are no calls.
set -eu
cd "$(dirname "$0")/.."
. tests/cases.sh
sed -n '/^## Every public call/,/^## Forms/p' docs/PROOFS.md > "$work/table"

# The functions of a crate that are public, or of a public trait: CRATE
public() {
    find "crates/$1/src" -name '*.rt' ! -name laws.rt ! -name tests.rt -print0 | xargs -0 awk '
        /^pub trait / { of_trait = 1 }
        /^}/ { of_trait = 0 }
        /^ *pub fn / || (of_trait && /^    fn /) { sub(/^ *(pub )?fn /, ""); sub(/[^A-Za-z0-9_].*/, ""); print }' | sort -u
}

for crate in $(sed -n 's/^| \([a-z_]*\) | .*/\1/p' "$work/table" | sort -u); do
    [ "$crate" != crate ] || continue
    grep "^| $crate |" "$work/table" > "$work/row"
    for name in $(public "$crate"); do
        judge "$crate: $name" "$(grep -qw "$name" "$work/row" || echo 'is in no row of its crate')"
    done
done

# Every crate with public functions has its rows, but for what tests share.
for crate in $(sed -n 's/^\([a-z_]*\):.*/\1/p' crates.txt); do
    [ "${crate#test_}" = "$crate" ] && [ -n "$(public "$crate")" ] || continue
    judge "$crate" "$(grep -q "^| $crate |" "$work/table" || echo 'has no row')"
done
count
