#!/bin/sh
# Builds the C library and tests it from C: the header agrees with the source (c/header.sh), the player in C prints what
# cellplay prints, and c/unit_test.c finds nothing wrong, also under gcc's sanitizers and under valgrind.
#
#   c/c_library.sh [--built]
#
# --built   takes c/out/libdalgweniz.a as it is
#
# Its last line is 'c_library.sh: ok'. Exit status: 0 all as it should be, 1 something differs, 2 it couldn't be run.

set -u
here=$(cd "$(dirname "$0")" && pwd) || exit 2
cd "$here/.." || exit 2
library=c/out/libdalgweniz.a
header=c/dalgweniz.h
dir=$(mktemp -d) || exit 2
trap 'rm -rf "$dir"' EXIT
trap 'exit 2' INT TERM

fail() {
    echo "c_library.sh: $*"
    exit 1
}

if [ "${1:-}" != --built ]; then
    c/make_library.sh > "$dir/rt" 2>&1 || { tail -20 "$dir/rt"; exit 2; }
    grep "^logic=" "$dir/rt" | tail -1
fi

# ---- the header against the source

c/header.sh > "$dir/agree" || { cat "$dir/agree"; fail "the header is not that of the source"; }
cat "$dir/agree"

# ---- what the library calls itself: nothing that allocates, reads, writes or waits

nm "$library" | awk '$1 == "U" { print $2 }' | sort -u > "$dir/undefined"
grep -v -x -e memcpy -e memmove -e memset "$dir/undefined" && fail "the library calls more than memcpy, memmove and memset"

# ---- the player and the test, built in every way

# build NAME FLAGS..: the player and the test under that name
build() {
    name=$1
    shift
    for program in play unit_test; do
        gcc -std=c11 -Wall -Wextra -Werror "$@" "$here/$program.c" "$library" -o "$dir/$program.$name" || exit 2
    done
}

# runs NAME RECORDS WORDS..: plays the sample and runs the test, each after WORDS
runs() {
    name=$1
    records=$2
    shift 2
    "$@" "$dir/play.$name" < crates/cellplay/stdin > "$dir/played" || fail "play ($name): exit status $?"
    cmp "$dir/played" crates/cellplay/stdout || fail "play ($name): not what cellplay prints"
    "$@" "$dir/unit_test.$name" "$records" > "$dir/said" || { cat "$dir/said"; fail "unit_test ($name)"; }
    [ "$(cat "$dir/said")" = ok ] || { cat "$dir/said"; fail "unit_test ($name)"; }
    echo "$name: ok"
}

build optimized -O2
runs optimized 50000
build plain -O0
runs plain 5000
build sanitized -O1 -g -fsanitize=address,undefined -fno-sanitize-recover=all
runs sanitized 5000
if command -v valgrind > "$dir/valgrind"; then
    runs plain 300 valgrind -q --error-exitcode=3 --log-file="$dir/valgrind"
    [ -s "$dir/valgrind" ] && { cat "$dir/valgrind"; fail "valgrind says something"; }
    echo "the same under valgrind: ok"
else
    echo "valgrind: not there, left out"
fi
if command -v g++ > "$dir/cxx"; then
    g++ -Wall -Wextra -Werror -fsyntax-only -x c++ "$header" || fail "the header is no C++"
fi
echo "c_library.sh: ok"
