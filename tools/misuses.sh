#!/usr/bin/env bash
# Tries the two misuses of a draft that is a plain variable: each is an error of the language, so no must-fail edit can show it.
# Each is put into a copy of `draft_uses`, and the compiler must refuse it with the error that is named here. Exit 0 only if both are refused so.
set -u
cd "$(dirname "$0")/.." || exit 1
root=$PWD
mkdir -p target || exit 1
scratch=$(mktemp -d "$root/target/misuses.XXXXXX") || exit 1
trap 'rm -rf "$scratch"' EXIT

# Both edits stand in place of this line.
line='    let abandoned = file.abandon(draft);'

# `?` leaves with the draft unspent.
let_go='    done?; let abandoned = file.abandon(draft);'

# An add to a draft that was committed.
late='    if let Err(NotCommitted { draft, fault: _ }) = file.commit(draft, \&[9; 16]) { let _ = file.abandon(draft); } let Added { draft, done } = file.add(draft, \&node(b"late", With::Nothing)); let abandoned = file.abandon(draft);'

# One folder has copies of all crates, so that their libraries are built once for both.
git ls-files -z crates crates.txt | xargs -0 cp --parents -t "$scratch" || exit 1
main=$scratch/crates/draft_uses/src/main.rt
cp "$main" "$scratch/main.rt" || exit 1

# misuse NAME EDIT ERROR: whether the copy with the edit is refused with this error.
misuse() {
    cp "$scratch/main.rt" "$main" || return 1
    if [ "$(grep -cxF "$line" "$main")" != 1 ]; then
        echo "$1: the line that it replaces does not stand there once"
        return 1
    fi
    sed -i "s|^$line\$|$2|" "$main"
    local log="$scratch/$1.log"
    if (cd "$scratch/crates/draft_uses" && rt check) >"$log" 2>&1; then
        echo "$1: NOT refused"
        return 1
    fi
    # The only error, and that before any proof.
    if grep -q '^crate draft_uses:' "$log" || [ "$(grep -o 'error\[[a-z0-9-]*\]' "$log" | sort -u)" != "error[$3]" ]; then
        echo "$1: refused, but not for $3 alone:"
        grep -m 5 'error' "$log"
        return 1
    fi
    echo "$1: refused by the compiler, $3"
}

status=0
misuse draft_let_go "$let_go" linear-value-let-go || status=1
misuse add_to_committed "$late" borrow-e0382 || status=1
exit $status
