#!/bin/sh
# Times `recover` of a key of 13 members with four wrong files and five lanes, less the program's start, and the
# combination of 13 shares of a secret of the same 320 bits by ssss-combine (package ssss), less that tool's start.
# Prints both and their ratio. No part of the gate; without ssss-combine only the first figure is printed.
# usage: bench/recover.sh [RUNS]
runs=${1:-200}
top=$(CDPATH='' cd -- "$(dirname -- "$0")/.." && pwd) || exit 1
program=$top/crates/committee_cli/out/committee_cli
[ -x "$program" ] || { echo "bench: build the program first (rt ci, or ./committee)" >&2; exit 1; }
folder=$(mktemp -d)
trap 'rm -rf "$folder"' EXIT
cp "$top"/samples/four_wrong_of_thirteen/shelf/* "$folder"
cd "$folder" || exit 1

# nanoseconds of one run of a command line, on average
average() {
  begin=$(date +%s%N)
  k=0
  while [ "$k" -lt "$runs" ]; do
    sh -c "$1" >/dev/null 2>&1
    k=$((k + 1))
  done
  end=$(date +%s%N)
  echo $(((end - begin) / runs))
}

start=$(average "'$program' --help")
whole=$(average "'$program' recover i")
ours=$((whole - start))
echo "recover of 13 files, 4 of them wrong: $((ours / 1000)) microseconds beside a start of $((start / 1000))"

if ! command -v ssss-combine >/dev/null 2>&1 || ! command -v ssss-split >/dev/null 2>&1; then
  echo "ssss-combine isn't here: no comparison"
  exit 0
fi
secret=$(head -c 40 /dev/zero | tr '\0' 'a' | od -An -v -tx1 | tr -d ' \n')
echo "$secret" | ssss-split -t 13 -n 13 -s 320 -x -q >shares 2>/dev/null
tool_start=$(average "ssss-combine --help")
tool_whole=$(average "ssss-combine -t 13 -x -q <shares")
theirs=$((tool_whole - tool_start))
echo "ssss-combine of 13 shares: $((theirs / 1000)) microseconds beside a start of $((tool_start / 1000))"
[ "$theirs" -gt 0 ] && echo "ratio, in hundredths: $((100 * ours / theirs))"
exit 0
