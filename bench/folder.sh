#!/bin/sh
# The longer campaign over real folders: 4,000 seals by eight programs at once, 2,000 rounds of four creates of one name,
# and each stop and error three times over. Takes some minutes, and is no part of the gate. A folder on a small file
# system may be named for the part that fills it.
# usage: bench/folder.sh [SMALL]
top=$(CDPATH='' cd -- "$(dirname -- "$0")/.." && pwd) || exit 1
program=$top/crates/committee_cli/out/committee_cli
[ -x "$program" ] || { echo "bench: no program (build it by rt ci, or ./committee): skipped"; exit 0; }
for _ in 1 2 3; do "$top/samples/folder" "$program" kills errors || exit 1; done
if [ -n "$1" ]; then "$top/samples/folder" "$program" --small "$1" room || exit 1; fi
exec "$top/samples/folder" "$program" --rounds 20 seals creates
