#!/bin/sh
# Makes the C library of the cell: crates/base_unit as a static library, c/out/libdalgweniz.a.
#
#   c/make_library.sh
#
# A crate is a library or a static library, not both. crates.txt has base_unit as a library, which the gate proves as it
# does the others; so the archive is made in a copy of crates/ whose crates.txt says `base_unit staticlib`. It is proved
# there once more, which takes some minutes on a machine that has kept nothing; what is being done is told meanwhile.

set -eu
root=$(cd "$(dirname "$0")/.." && pwd)
copy=$(mktemp -d)
trap 'rm -rf "$copy"' EXIT
trap 'exit 2' INT TERM

tar -C "$root" --exclude=out -cf - crates | tar -C "$copy" -xf -
sed 's/^base_unit:/base_unit staticlib:/' "$root/crates.txt" > "$copy/crates.txt"
grep -q '^base_unit staticlib:' "$copy/crates.txt" || {
    echo "make_library.sh: crates.txt has no line of base_unit" >&2
    exit 2
}
echo "make_library.sh: proving base_unit and what it stands on .." >&2
(cd "$copy/crates/base_unit" && rt lib)
mkdir -p "$root/c/out"
cp "$copy/crates/base_unit/out/libbase_unit.a" "$root/c/out/libdalgweniz.a"
echo "make_library.sh: c/out/libdalgweniz.a" >&2
