#!/bin/sh
# Holds that each program which must be turned away is refused for the reason that is meant, and that its mended twin is proved.
set -eu
root=$(cd "$(dirname "$0")/.." && pwd -P)
work=$(mktemp -d)
trap 'rm -rf "$work"' EXIT
failed=0

# A repository of its own, with the crates that the programs stand on.
libraries="$(sed -n 's/^day: //p' "$root/crates.txt") day"
mkdir "$work/crates"
for library in $libraries; do
    cp -R "$root/crates/$library" "$work/crates/$library"
    grep "^$library:" "$root/crates.txt" >>"$work/crates.txt"
done
(cd "$work/crates/day" && rt check) >"$work/day.out" 2>&1 || {
    tail -n 20 "$work/day.out"
    echo "failed: day is not proved"
    exit 1
}

# Checks one program as a crate of its own, over the proved crates.
checked() { # NAME
    mkdir -p "$work/crates/$1/src"
    cp "$root/refused/$1.rt.txt" "$work/crates/$1/src/main.rt"
    echo "$1: $libraries anyhow" >>"$work/crates.txt"
    (cd "$work/crates/$1" && rt check) >"$work/$1.out" 2>&1
}

# Every error has to be of the kind and at the words that are meant.
refused() { # NAME REASON KIND WORDS
    if checked "$1"; then
        echo "failed: $1 was accepted"
        failed=1
    elif grep 'error\[' "$work/$1.out" | grep -vF "error[$3]" | grep -q . ||
        ! grep -F "error[$3]" "$work/$1.out" | grep -qF "$4"; then
        cat "$work/$1.out"
        echo "failed: $1 was refused for another reason"
        failed=1
    else
        echo "refused: $1 ($2)"
    fi
}

accepted() { # NAME
    if checked "$1" && grep -q '^logic=proved' "$work/$1.out"; then
        echo "accepted: $1"
    else
        cat "$work/$1.out"
        echo "failed: $1 was not accepted"
        failed=1
    fi
}

refused follow_unchecked 'a private field' private-field 'of struct `CheckedPlan` is private'
accepted follow_checked
refused follow_twice 'use of a moved value' borrow-e0382 'use of moved value: `plan`'
accepted check_again
exit "$failed"
