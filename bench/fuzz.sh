#!/bin/sh
# Parties that say anything at all: random well-shaped and ill-shaped messages of every kind in every round, honest
# words that are altered behind all others', dealers of two grids, in creates, refreshes and moves of 4 to 10 members,
# as many faulty as the bound allows. After each phase the shares of the honest members must lie on one polynomial of
# degree at most the bound, and a refreshed or moved key must be the same. Prints figures and ends by itself; the same
# seed has the same cases.
# Usage: bench/fuzz.sh [SEED] [CASES] [FIRST], seed 1 and 300 cases from number 0 on where no number is given.
# The program is bench/fuzz.txt. It is run by `rt try`, so this tests, and proves nothing.
set -eu
here=$(cd "$(dirname "$0")/.." && pwd)
seed=${1:-1}
cases=${2:-300}
first=${3:-0}
work=$(mktemp -d)
trap 'rm -rf "$work"' EXIT
. "$here/bench/parts.sh"
copy_parts "$here" "$work" fuzz 'players driver jointkey zeroshare moveshare drillbook chance61 bivar61 poly61 talk field61 lists'
cd "$work/crates/fuzz"
status=0
rt try --seconds 3000 -- "$seed" "$first" "$cases" > "$work/shown" 2> "$work/log" || status=$?
cat "$work/shown"
grep -q '^move: ' "$work/shown" || cat "$work/log" >&2
exit $status
