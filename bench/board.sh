#!/bin/sh
# Works many boards with 2, 3, 13, 26 and 30 threads each, and compares what all seats saw of a board with the closed board: one mask, who is in it reads as its post, nobody else is there, and no count of a cell rose. On half of the boards all seats post; on the others some pass, and some post after they passed. It ends by itself.
# Usage: bench/board.sh [BOARDS], 40 boards of each size and kind where no number is given.
# The program is bench/board_hammer.txt. It is run by `rt try`, so this tests, and proves nothing.
set -eu
here=$(cd "$(dirname "$0")/.." && pwd)
boards=${1:-40}
work=$(mktemp -d)
trap 'rm -rf "$work"' EXIT
mkdir -p "$work/crates/board_hammer/src"
cp "$here/HANDLES" "$work/"
for crate in lists counters roundboard; do
    for part in src specs proofs; do
        [ -d "$here/crates/$crate/$part" ] || continue
        mkdir -p "$work/crates/$crate/$part"
        cp -r "$here/crates/$crate/$part/." "$work/crates/$crate/$part/"
    done
done
sed "s/^const BOARDS: u32 = 40;/const BOARDS: u32 = $boards;/" "$here/bench/board_hammer.txt" > "$work/crates/board_hammer/src/main.rt"
printf 'lists:\ncounters:\nroundboard: lists atomic_table once_cell counters\nboard_hammer: roundboard lists\n' > "$work/crates.txt"
cd "$work/crates/board_hammer"
rt try > "$work/shown" 2> "$work/log" || true
bad=0
for seats in 2 3 13 26 30; do
    line="$seats seats: $boards of $boards boards with all posts agree, $boards of $boards with passes"
    if ! grep -qxF "$line" "$work/shown"; then
        echo "missing: $line" >&2
        bad=1
    fi
done
if [ "$bad" -ne 0 ]; then
    cat "$work/shown" "$work/log" >&2
    exit 1
fi
grep 'seats:' "$work/shown"
