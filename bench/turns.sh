#!/bin/sh
# How long the pace that the program hands in waits at a round whose seats don't arrive: asks a pace of turns 20,000 times, and prints the
# time of a turn and of all the turns of the program (TURNS in crates/committee_cli/src/main.rt). It ends by itself.
# The program is bench/turns.txt. It is run by `rt try`, so this measures, and proves nothing.
set -eu
here=$(cd "$(dirname "$0")/.." && pwd)
work=$(mktemp -d)
trap 'rm -rf "$work"' EXIT
mkdir -p "$work/crates/turns_timed/src"
cp "$here/HANDLES" "$work/"
for crate in lists counters roundboard shelf crews paces; do
    for part in src specs proofs; do
        [ -d "$here/crates/$crate/$part" ] || continue
        mkdir -p "$work/crates/$crate/$part"
        cp -r "$here/crates/$crate/$part/." "$work/crates/$crate/$part/"
    done
    grep "^$crate:" "$here/crates.txt" >> "$work/crates.txt"
done
echo 'turns_timed: paces lists' >> "$work/crates.txt"
cp "$here/bench/turns.txt" "$work/crates/turns_timed/src/main.rt"
cd "$work/crates/turns_timed"
rt try > "$work/shown" 2> "$work/log" || { cat "$work/shown" "$work/log" >&2; exit 1; }
cat "$work/shown"
