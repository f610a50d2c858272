#!/bin/sh
# Measures what the gate pays for each crate, in processor seconds, in the order of crates.txt: `rt verdict` (the crate and
# its tests, from nothing, over the libraries that stand) and `rt must-fail` (its edits). Prints a table, which
# docs/COST.md reads. It works in a copy of the repository, so nothing is left behind. Only figures from a quiet machine
# say much: the load is printed first and last. A whole run takes hours of processor time.
#
# usage: bench/proofs.sh [CRATE..]
top=$(CDPATH='' cd -- "$(dirname -- "$0")/.." && pwd) || exit 1
for tool in rt python3; do
  command -v "$tool" >/dev/null 2>&1 || { echo "bench: no $tool: skipped"; exit 0; }
done
copy=$(mktemp -d) || exit 1
trap 'rm -rf "$copy"' EXIT
trap 'exit 1' HUP INT TERM
cp "$top/crates.txt" "$top/HANDLES" "$copy"
(cd "$top" && tar cf - --exclude=out crates) | (cd "$copy" && tar xf -) || exit 1
crates=${*:-$(sed -n 's/^\([a-z0-9_]*\):.*/\1/p' "$copy/crates.txt")}

# spent FOLDER WORD..: the processor seconds of a command with all that it starts, or `failed`
spent() {
  python3 -c '
import os, subprocess, sys
status = subprocess.run(sys.argv[2:], cwd=sys.argv[1], stdin=subprocess.DEVNULL, stdout=subprocess.DEVNULL, stderr=subprocess.DEVNULL).returncode
times = os.times()
print("failed" if status else round(times.children_user + times.children_system))' "$@"
}

echo "load $(cut -d ' ' -f 1-3 /proc/loadavg), $(nproc) processors, $(rt version)"
echo '| crate | lines | check and tests | edits | number of edits |'
echo '|---|---|---|---|---|'
for crate in $crates; do
  folder=$copy/crates/$crate
  lines=$(find "$folder/src" "$folder/specs" "$folder/proofs" -name '*.rt' -o -name '*.antt' 2>/dev/null | xargs cat | wc -l)
  number=$(find "$folder" -path '*/must-fail/*.edit' | wc -l)
  checked=$(spent "$folder" rt verdict)
  edits=-
  [ "$number" = 0 ] || edits=$(spent "$copy" rt must-fail "$crate")
  echo "| $crate | $lines | $checked | $edits | $number |"
done
echo "load $(cut -d ' ' -f 1-3 /proc/loadavg)"
