#!/usr/bin/env bash
# Kills the program `sheet` at each of its calls on a section file, as it adds a node, a node with data and a branch: before the call,
# and where half of a write's bytes are taken; and lets each of these calls fail, as on a bad disc.
# Each time the file that is left must be accepted, with the count of finished transactions from before or one more; what `history` tells
# of the earlier transactions must be the same to the byte, and of the new one what an add that is not killed tells; and the file must take
# another node. Where a call failed, the program must have told the count that is left.
# Prints a line for each cut, that is, each kill and each call that failed; exit 0 only if all of that holds.
set -u
cd "$(dirname "$0")/.." || exit 1
root=$PWD
mkdir -p target || exit 1
scratch=$(mktemp -d "$root/target/kills.XXXXXX") || exit 1
trap 'rm -rf "$scratch"' EXIT

gcc -O1 -Wall -Wextra -std=c11 -o "$scratch/kill_at" tools/kill_at.c || exit 1
# proves and builds the program where it has changed; an empty script does nothing
(cd crates/sheet && rt run </dev/null) >"$scratch/build.log" 2>&1 || { cat "$scratch/build.log"; exit 1; }
sheet=$root/crates/sheet/out/sheet
[ -x "$sheet" ] || { echo "the program is not at $sheet"; exit 1; }
cd "$scratch" || exit 1

# No add takes more calls.
most=60
# With fewer cuts an add was not tried at all.
fewest=3
cuts=0
wrong=0

bytes() { head -c "$1" /dev/zero | tr '\0' "$2"; }
bytes 10 a >short
bytes 900 b >long
bytes 3000 c >content

# count FILE: how many transactions are finished, as `check` tells
count() { "$sheet" check "$1" | sed -n 's/^.*: accepted: \([0-9]*\) transactions\{0,1\} finished,.*$/\1/p'; }

# bad WHAT: the last cut left something wrong
bad() {
    echo "    WRONG: $1"
    wrong=$((wrong + 1))
}

# judge BEFORE AFTER COPY MODE: whether what a cut left of COPY stands, which was BEFORE, and which AFTER would be
judge() {
    local old left
    old=$(count "$1")
    left=$(count "$3")
    "$sheet" history "$1" >before.txt && "$sheet" history "$2" >after.txt || bad "no history"
    if ! "$sheet" history "$3" >left.txt; then
        bad "the file is refused: $("$sheet" check "$3")"
    elif [ "$left" = "$old" ]; then
        cmp before.txt left.txt || bad "the history is another"
    elif [ "$left" = "$((old + 1))" ]; then
        cmp after.txt left.txt || bad "the history is another"
    else
        bad "$left are finished, where $old were"
    fi
    if [ "$4" = fail ] && ! grep -q "^sheet: $3: what stands: $left transaction" told.txt; then
        bad "another count was told: $(cat told.txt)"
    fi
    "$sheet" add "$3" 16 1 short >told.txt || bad "the file takes no other node"
    "$sheet" history "$3" | head -c "$(wc -c <left.txt)" | cmp - left.txt || bad "another node changes the history"
    echo "    left with $left finished, of $old before"
}

# cut_each NAME BEFORE COMMAND LIST ARGUMENT..: cuts an add to a copy of BEFORE at each of its calls, in each way
cut_each() {
    local name=$1 before=$2 command=$3 mode n status here
    shift 3
    cp "$before" whole.one && "$sheet" "$command" whole.one "$@" >told.txt || { bad "$name is refused"; return; }
    for mode in before half fail; do
        here=0
        for ((n = 1; n <= most; n++)); do
            cp "$before" copy.one
            ./kill_at "$mode" "$n" copy.one "$sheet" "$command" copy.one "$@" >cut.txt 2>told.txt
            status=$?
            [ "$status" = 10 ] || break
            here=$((here + 1))
            echo "$name, call $n: $(tail -n 1 cut.txt)"
            judge "$before" whole.one copy.one "$mode"
        done
        if [ "$status" != 0 ]; then
            bad "$name, call $n: neither cut nor ended"
        elif ! cmp -s <("$sheet" history whole.one) <("$sheet" history copy.one); then
            bad "$name: not cut, it leaves another history"
        fi
        [ "$here" -ge "$fewest" ] || bad "$name: only $here cuts"
        cuts=$((cuts + here))
    done
}

# extend FILE COMMAND ARGUMENT..: a transaction that is not killed
extend() {
    local file=$1 command=$2
    shift 2
    "$sheet" "$command" "$file" "$@" >told.txt || { echo "the sample takes no node"; exit 1; }
}

# Six transactions: the log's fragment has room for three entries, and the last one of list 16 for a short node and not for a long one.
cp "$root/samples/section.one" some.one || exit 1
for payload in short long short; do
    extend some.one add 16 5 "$payload"
done
# Room for one entry, and for none.
cp some.one near.one && extend near.one add 16 6 short
cp some.one full.one && extend full.one branch 16 6 short 7 short

cut_each "a node" some.one add 16 7 short
cut_each "a node that wants a fragment" some.one add 16 7 long
cut_each "a node with data" some.one data 16 8 short content
cut_each "a branch" some.one branch 16 9 short 10 long
cut_each "a branch whose entries go to two fragments" near.one branch 16 9 short 10 long
cut_each "a node whose entries want a fragment" full.one add 16 7 short

if [ "$wrong" != 0 ]; then
    echo "$cuts cuts, $wrong things wrong"
    exit 1
fi
echo "$cuts cuts: each left the file accepted, with what was finished before"
