#!/bin/sh
# Compares the C header with the source: c/dalgweniz.h has the functions of crates/base_unit, its out-structs field by
# field and in their order, each refusal's number, and the sizes that the source proves. It reads text only, in a second.
#
#   c/header.sh
#
# Its last line is 'header.sh: ok'. Exit status: 0 they agree, 1 they differ, 2 it couldn't be run.

set -u
cd "$(dirname "$0")/.." || exit 2
header=c/dalgweniz.h
source=crates/base_unit/src
dir=$(mktemp -d) || exit 2
trap 'rm -rf "$dir"' EXIT
trap 'exit 2' INT TERM

numbers='s/\busize\b/size_t/g; s/\b\([ui]\)\(8\|16\|32\|64\)\b/\1int\2_t/g; s/\buint/uint/g; s/\biint/int/g'
types='s/&mut CellMemory\b/dalgweniz_cell */g; s/&CellMemory\b/const dalgweniz_cell */g
    s/&mut \[u8\]/u8 *, usize/g; s/&\[u8\]/const u8 *, usize/g
    s/&mut TurnOut\b/dalgweniz_turn_out */g; s/&mut Fed\b/dalgweniz_fed */g
    s/&mut StandingOut\b/dalgweniz_standing */g; s/&mut FrameOut\b/dalgweniz_frame_out */g; s/&mut u64\b/u64 */g'

# both without comments, in one line
cat "$source"/*.rt | sed 's@//.*@@' | tr -s '\n ' ' ' > "$dir/source" || exit 2
tr '\n' ' ' < "$header" | sed 's@/\*@\n/*@g' | sed 's@/\*.*\*/@@' | tr -s '\n ' ' ' > "$dir/header" || exit 2

# ---- functions: names, types of parameters and results

grep -o 'extern "C" fn [a-z_]*([^)]*) -> [a-z0-9]*' "$dir/source" |
    sed -e 's/extern "C" fn //' -e 's/, *)/)/; s/( /(/; s/[a-z_]*: //g' -e 's/\(.*\) -> \(.*\)/\2 \1/' -e "$types" -e "$numbers" |
    sort > "$dir/source.calls"
grep -o '[a-z0-9_]* dalgweniz_[a-z]*([^)]*);' "$dir/header" |
    sed -e 's/;$//; s/(void)/()/; s/\([ *]\)[a-z]*\([,)]\)/\1\2/g; s/ \([,)]\)/\1/g' |
    sort > "$dir/header.calls"

# ---- out-structs: each #[repr(C)], its fields by type and name, in their order

grep -o '#\[repr(C)\] #\[derive([A-Za-z, ]*)\] pub struct [A-Za-z]* {[^}]*}' "$dir/source" |
    sed 's/^#\[repr(C)\] #\[derive([^)]*)\] //' | grep -v '^pub struct CellMemory ' |
    sed -e 's/pub struct \([A-Za-z]*\) {\(.*\)}/\&mut \1:\2/; s/pub \([a-z_]*\): \([a-z0-9]*\),/\2 \1;/g' -e "$types" -e 's/ \*:/:/' -e "$numbers" |
    sort > "$dir/source.structs"
grep -o 'typedef struct {[^}]*} dalgweniz_[a-z_]*;' "$dir/header" | grep -v 'dalgweniz_cell;' |
    sed 's/typedef struct {\(.*\)} \(dalgweniz_[a-z_]*\);/\2:\1/' |
    sort > "$dir/header.structs"

# ---- refusals: names and numbers

sed -n 's/^ *\([A-Z][A-Za-z]*\) = \([0-9]*\),/\1 \2/p' crates/answer/src/refusal.rt |
    sed 's/\([a-z]\)\([A-Z]\)/\1_\2/g' | tr 'a-z' 'A-Z' | sort > "$dir/source.refusals"
grep -o 'DALGWENIZ_[A-Z_]* = [0-9]*' "$dir/header" | sed 's/DALGWENIZ_//; s/ = / /' |
    grep -v -e '^DONE ' -e '^BY_THE_' | sort > "$dir/header.refusals"

# ---- the bytes of a cell, which the contract of dalgweniz_size proves

grep -o 'fn dalgweniz_size() -> usize ensures { result ≡ [0-9]* }' "$dir/source" |
    sed 's/.* \([0-9]*\) }/\1/' > "$dir/source.size"
sed -n 's/^#define DALGWENIZ_CELL_BYTES \([0-9]*\)$/\1/p' "$header" > "$dir/header.size"

for what in calls structs refusals size; do
    [ -s "$dir/source.$what" ] || { echo "header.sh: the source has no $what"; exit 2; }
    diff "$dir/header.$what" "$dir/source.$what" || {
        echo "header.sh: the $what of $header (<) are not those of the source (>)"
        exit 1
    }
    echo "header and source agree: $(wc -l < "$dir/header.$what") $what"
done
echo "header.sh: ok"
