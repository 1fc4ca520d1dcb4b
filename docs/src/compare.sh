#!/bin/sh
# Plays random recordings into cellplay, into hallplay, into the C library and into the
# reference, and compares byte for byte: cellplay's lines with the reference's, and the lines
# and whole states that hallplay prints with both choosers, and those that c/states.c has from
# the library, with the reference's. Stops at the first difference. docs/COMPARISON.md tells
# what has been seen.
#
#   docs/src/compare.sh [options]
#
#   --cellplay PATH  the program (crates/cellplay/out/cellplay); none: lines from the library only
#   --hallplay PATH  the program (crates/hallplay/out/hallplay), with both choosers; none: without it
#   --library PATH   the C library (c/out/libdalgweniz.a); none: without it
#   --build          first make all three: rt run in cellplay and hallplay, c/make_library.sh
#   --keep K         the keep of all recordings (2), but for some that have another one anyway;
#                    cellplay is left out of those that haven't 2
#   --records N      how many to play, at least (20,000,000)
#   --every N        a state after every Nth record of the long recordings (10)
#   --seed S         the first seed (1); each round of profiles takes the next
#   --reference F    another source of the reference
#   --self           the reference with --check in cellplay's place, and nothing else
#   --planted        compare with copies of the reference that have one bug each, at most
#                    so many records: lines and states have to find every one
#
# Exit status: 0 all the same (planted: all found), 1 a difference (one not found),
# 2 it couldn't be run.

here=$(cd "$(dirname "$0")" && pwd) || exit 2
root=$(cd "$here/../.." && pwd) || exit 2
cellplay=$root/crates/cellplay/out/cellplay
hallplay=$root/crates/hallplay/out/hallplay
library=$root/c/out/libdalgweniz.a
reference=$here/reference.rs
wanted=20000000
every=10
seed=1
keep=2
build=no
planted=no
profiles="hall fades leads departures chains reopen full idle ties rates extremes refusals mixed"

stop() {
    echo "compare.sh: $*" >&2
    exit 2
}

while [ $# -gt 0 ]; do
    case $1 in
    --build) build=yes ;;
    --planted) planted=yes ;;
    --self) cellplay=self && hallplay=none && library=none ;;
    --cellplay | --hallplay | --library | --keep | --reference | --records | --every | --seed)
        [ $# -gt 1 ] || stop "$1 needs a value"
        case $1 in
        --cellplay) cellplay=$2 ;;
        --hallplay) hallplay=$2 ;;
        --library) library=$2 ;;
        --keep) keep=$2 ;;
        --reference) reference=$2 ;;
        --records) wanted=$2 ;;
        --every) every=$2 ;;
        --seed) seed=$2 ;;
        esac
        shift
        ;;
    *) stop "no option $1; they stand at the head of the script" ;;
    esac
    shift
done

if [ $build = yes ]; then
    (cd "$root/crates/cellplay" && rt run < /dev/null) &&
        (cd "$root/crates/hallplay" && rt run < /dev/null) &&
        "$root/c/make_library.sh" || stop "not built"
fi
case $cellplay in
none | self) ;;
*) [ -x "$cellplay" ] || stop "no program $cellplay" ;;
esac
[ "$hallplay" = none ] || [ -x "$hallplay" ] || stop "no program $hallplay"
[ "$library" = none ] || [ -f "$library" ] || stop "no library $library"

dir=$(mktemp -d) || exit 2
leave=no
trap '[ $leave = yes ] || rm -rf "$dir"' EXIT
trap 'exit 2' INT TERM

# ---------------------------------------------------------------- planted bugs

# Runs this script with $dir/bug.rs; prints after how many records a difference was seen.
seek() {
    TMPDIR=$dir "$0" --reference "$dir/bug.rs" --records "$wanted" --seed "$seed" "$@" 2> /dev/null |
        sed -n 's/^DIFFERENT after \([0-9]*\) records.*/\1/p'
}

# A bug: what it is, a text that stands once in reference.rs, and what takes its place.
plant() {
    awk -v old="$2" -v new="$3" '{
        at = index($0, old)
        if (at) { n++; $0 = substr($0, 1, at - 1) new substr($0, at + length(old)) }
        print
    } END { exit n != 1 }' "$here/reference.rs" > "$dir/bug.rs" || stop "\"$2\" doesn't stand once in reference.rs"
    lines=- states=-
    [ "$cellplay" = none ] || lines=$(seek --cellplay "$cellplay" --hallplay none --library none)
    [ "$library" = none ] || states=$(seek --cellplay none --hallplay none --library "$library" --every 1)
    [ -n "$lines" ] && [ -n "$states" ] || missed=$((missed + 1))
    echo "| $1 | ${lines:-not found} | ${states:-not found} |"
}

if [ $planted = yes ]; then
    missed=0
    echo "| planted in the reference | found by lines after so many records | by states |"
    echo "|---|---:|---:|"
    plant "the allowance rises where it falls" "allowance -= 4" "allowance += 4"
    plant "the allowance is left when a lead begins" "session.allowance = 0;" ""
    plant "the allowance rises in own turns only" "if led {" "if led && step_3 {"
    plant "a lag is divided for each session alone" "+= together - given" "+= lag * session.rate / all_rates"
    plant "the highest place departs first" "sessions.find(|(_, s)| s.active && s.queue.is_empty() && s.lag >= 0)" \
        "sessions.filter(|(_, s)| s.active && s.queue.is_empty() && s.lag >= 0).last()"
    plant "the mark falls to 0 in an empty cell" "self.mark = self.sessions().map(|(_, s)| s.virtual_time).max().unwrap()" \
        "self.mark = 0"
    plant "an arrival does not look at the mark" "session.virtual_time.max(mark)" "session.virtual_time"
    plant "closing does not look at the mark" "self.at(place).virtual_time > self.mark" "false"
    plant "the higher place is chosen on a tie" "min_by_key(|(_, s)| s.virtual_time)" \
        "min_by_key(|(p, s)| (s.virtual_time, PLACES - p))"
    plant "the higher place is picked on a tie" "if smallest <= value" "if smallest < value"
    plant "the offer of a join holds who joins" "before[place] && after[place]" "after[place]"
    plant "a join lowers a count too" "counts[place].max(smallest)" "smallest"
    plant "served is told the chosen's price" "let price = self.at(sender).price" "let price = self.at(chosen).price"
    plant "opening clears one count only" "counts[List::Extra as usize][place] = 0" ""
    plant "a lag of 0 stands in the credit list" "List::Credit => session.able() && session.lags()" \
        "List::Credit => session.able() && session.lag >= 0"
    plant "an idle turn has 255 bytes" "IDLE_LENGTH: i128 = 256" "IDLE_LENGTH: i128 = 255"
    exit $((missed > 0))
fi

# ---------------------------------------------------------------- comparing

rustc -O --edition 2021 "$reference" -o "$dir/reference" || stop "the reference doesn't build"
rustc -O --edition 2021 "$here/generate.rs" -o "$dir/generate" || stop "the generator doesn't build"
if [ "$library" != none ]; then
    gcc -O2 -I "$root/c" "$root/c/states.c" "$library" -o "$dir/states" || stop "states.c doesn't build"
fi
mkfifo "$dir/from_reference" "$dir/from_states" || exit 2
: > "$dir/tallies"
records=0

# $1: what is compared, $2: of which recording, $3: the record; the rest is for the reader.
different() {
    leave=yes
    echo "DIFFERENT after $((records + $3)) records: $1 of $2, record $3"
    shift 3
    for words in "$@"; do
        echo "$words"
    done
    echo "the recording is $dir/recording"
    exit 1
}

compare_lines() {
    case $cellplay in
    self) "$dir/reference" --check < "$dir/recording" > "$dir/played" ;;
    *) "$cellplay" < "$dir/recording" > "$dir/played" ;;
    esac
    status=$?
    "$dir/reference" --tally < "$dir/recording" > "$dir/expected" 2> "$dir/tally"
    failed=$?
    if ! cmp -s "$dir/played" "$dir/expected"; then
        line=$(awk 'NR == FNR { expected[FNR] = $0; next }
            !(FNR in expected) || $0 != expected[FNR] { print FNR; found = 1; exit }
            END { if (!found) print FNR + 1 }' "$dir/expected" "$dir/played")
        different "line" "$1" "$line" "played:   $(sed -n "${line}p" "$dir/played")" \
            "expected: $(sed -n "${line}p" "$dir/expected")"
    fi
    [ $failed = 0 ] || stop "the reference failed"
    [ $status = 0 ] || different "exit status $status" "$1" "$(wc -l < "$dir/played")"
}

# $2: a state after every so many records, $3: the keep.
compare_states() {
    "$dir/reference" --keep "$3" --state "$2" --tally < "$dir/recording" > "$dir/from_reference" 2> "$dir/tally" &
    of_reference=$!
    "$dir/states" "$2" "$3" < "$dir/recording" > "$dir/from_states" 2> "$dir/said" &
    of_states=$!
    found=$(cmp "$dir/from_reference" "$dir/from_states" 2>&1)
    wait $of_reference
    failed=$?
    wait $of_states
    status=$?
    if [ -n "$found" ]; then
        line=${found##*line }
        "$dir/reference" --keep "$3" --state "$2" < "$dir/recording" 2> /dev/null | head -n "$line" > "$dir/expected"
        "$dir/states" "$2" "$3" < "$dir/recording" 2> /dev/null | head -n "$line" > "$dir/played"
        different "state (keep $3, after every $2)" "$1" "$(grep -c '^[0-9]' "$dir/expected")" \
            "played:   $(tail -n 1 "$dir/played")" "expected: $(tail -n 1 "$dir/expected")" "$(cat "$dir/said")"
    fi
    [ $failed = 0 ] || stop "the reference failed"
    [ $status = 0 ] || different "$(cat "$dir/said")" "$1" 0
}

# The same through hallplay, with both choosers. It ends with status 1 where not all was played.
compare_told() {
    for chooser in least-served largest-debt; do
        "$dir/reference" --keep "$3" --chooser "${chooser%%-*}" --state "$2" --tally \
            < "$dir/recording" > "$dir/expected" 2> "$dir/tally_$chooser" || stop "the reference failed"
        "$hallplay" --keep "$3" --chooser "$chooser" --states "$2" < "$dir/recording" > "$dir/played" 2> "$dir/said"
        status=$?
        found=$(cmp "$dir/expected" "$dir/played" 2>&1)
        if [ -n "$found" ]; then
            line=${found##*line }
            different "hallplay (keep $3, $chooser, after every $2)" "$1" \
                "$(head -n "$line" "$dir/expected" | grep -c '^[0-9]')" \
                "played:   $(sed -n "${line}p" "$dir/played")" "expected: $(sed -n "${line}p" "$dir/expected")" \
                "$(cat "$dir/said")"
        fi
        early=$(grep -c -e '^fault ' -e '^1000000 ' "$dir/expected")
        [ $status = "$early" ] || different "hallplay's status $status ($(cat "$dir/said"))" "$1" 0
    done
    cp "$dir/tally_least-served" "$dir/tally"
}

# Compares $dir/recording. $1: its name, $2: its profile, $3: N of the states, $4: the keep.
same() {
    if [ "$cellplay" != none ] && [ "$4" = 2 ]; then
        compare_lines "$1"
    fi
    if [ "$hallplay" != none ]; then
        compare_told "$1" "$3" "$4"
    fi
    if [ "$library" != none ]; then
        compare_states "$1" "$3" "$4"
    fi
    (echo "recordings 1" && cat "$dir/tally") | sed "s/^/$2 /" >> "$dir/tallies"
    records=$((records + $(sed -n 's/^records //p' "$dir/tally")))
}

# A recording of seed $1, so many records $2, profile $3, compared with $4 and $5 as above.
random() {
    "$dir/generate" "$1" "$2" "$3" > "$dir/recording" || stop "generate failed"
    same "generate $1 $2 $3" "$3" "$4" "$5"
}

# The sample, with the answers written out.
cat > "$dir/answers" << 'END'
1 O ok --------
2 O ok --------
3 A ok --------
4 A ok --------
5 A ok --------
6 A ok --------
7 B ok --------
8 T 0/1/3/101/x --------
9 G ok --------
10 T 1/1/4/50/n --------
11 T 1/0/1/100/c --------
12 T 0/0/2/100/n --------
13 T E14 --------
14 C ok --------
END
cat > "$dir/states_12" << 'END'
state after 12 mark 450 booked 600600 turns 4 keep 2
place 0 rate 360360 price 2 time 402 lag 0 allowance 0
place 1 rate 240240 price 3 time 450 lag 0 allowance 300
END
random 0 0 sample 1 2
"$dir/reference" --state 12 < "$dir/recording" > "$dir/played"
grep '^[0-9]' "$dir/played" | cmp -s - "$dir/answers" || different "the written answers" "the sample" 14
grep -A 2 '^state after 12 ' "$dir/played" | sed 's/ channel.*//' | cmp -s - "$dir/states_12" ||
    different "the written state" "the sample" 12

# No record at all.
random 0 0 mixed 1 2

# A fault in each byte of each letter's record. Left out of short runs, as is what follows.
if [ "$wanted" -ge 1000000 ]; then
    fault=0
    while [ $fault -lt 372 ]; do
        random $fault 0 faults 1 2
        fault=$((fault + 1))
    done
fi

# The millionth record is the last one, whatever follows.
if [ "$wanted" -ge 5000000 ]; then
    random "$seed" 1000003 mixed 100 2
    "$dir/generate" "$seed" 1000001 fades | head -c 16000007 > "$dir/recording"
    same "generate $seed 1000001 fades | head -c 16000007" fades 100 2
    "$dir/generate" "$seed" 1000000 hall > "$dir/recording"
    printf 'damaged records!' >> "$dir/recording"
    same "generate $seed 1000000 hall, and a damaged record" hall 100 2
fi

size=$((wanted / 200))
[ "$size" -gt 1000 ] || size=1000
[ "$size" -lt 100000 ] || size=100000
while [ "$records" -lt "$wanted" ]; do
    for profile in $profiles; do
        random "$seed" $((size / 50)) "$profile" 1 "$keep"
        random "$((seed + 1000000))" "$size" "$profile" "$every" "$keep"
    done
    for part in 0 1 2 3 4 5 6 7 8 9; do
        for more in 0 1 2 3 4; do
            random "$((seed * 1000 + part * 10 + more))" 300 damaged 1 "$keep"
        done
    done
    # cellplay has keep 2; the others take any.
    if [ "$library" != none ] || [ "$hallplay" != none ]; then
        for other in 0 1 3 4; do
            random "$((seed * 10 + other))" $((size / 4)) mixed "$every" $other
            random "$((seed * 10 + other))" $((size / 4)) leads "$every" $other
        done
    fi
    echo "seed $seed: $records records the same" >&2
    seed=$((seed + 1))
done

# ---------------------------------------------------------------- what was compared

awk '{
    if ($2 ~ /^most-/) { if ($3 > all[$2]) all[$2] = $3 } else { all[$2] += $3; of[$1 " " $2] += $3 }
    if (!($1 in seen)) { seen[$1] = 1; order[++n] = $1 }
    if (!($2 in all_seen)) { all_seen[$2] = 1; names[++m] = $2 }
} END {
    k = split("recordings records states states-places n c k x i departures", column, " ")
    printf "| profile |"; for (i = 1; i <= k; i++) printf " %s |", column[i]
    printf "\n|---|"; for (i = 1; i <= k; i++) printf "---:|"
    for (j = 1; j <= n; j++) {
        printf "\n| %s |", order[j]
        for (i = 1; i <= k; i++) printf " %.0f |", of[order[j] " " column[i]]
    }
    printf "\n| all |"; for (i = 1; i <= k; i++) printf " %.0f |", all[column[i]]
    printf "\n\n| what came about | |\n|---|---:|\n"
    fflush()
    for (j = 1; j <= m; j++) printf "| %s | %.0f |\n", names[j], all[names[j]] | "sort -V"
}' "$dir/tallies"
echo
echo "the same: $records records; next seed $seed"
