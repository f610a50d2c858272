#!/bin/sh
# Seals and opens a document of 2^26 bytes with the program, and beside it makes and checks the same kind of bytes with
# openssl: ChaCha20 over the document and HMAC over what came out of it. Both are run in turn, some rounds of them. Prints
# the least processor time, the least time by the clock and the most memory of each, and the ratios. The program syncs
# what it writes, openssl doesn't. No part of the gate; skipped where openssl, python3 or the program is missing.
# usage: bench/documents.sh [BYTES [ROUNDS]]
bytes=${1:-67108864}
rounds=${2:-9}
top=$(CDPATH='' cd -- "$(dirname -- "$0")/.." && pwd) || exit 1
program=$top/crates/committee_cli/out/committee_cli
[ -x "$program" ] || { echo "bench: no program (build it by rt ci, or ./committee): skipped"; exit 0; }
for tool in openssl python3; do
  command -v "$tool" >/dev/null 2>&1 || { echo "bench: no $tool: skipped"; exit 0; }
done
folder=$(mktemp -d)
trap 'rm -rf "$folder"' EXIT
cd "$folder" || exit 1
head -c "$bytes" /dev/urandom >plain.txt
key=$(head -c 32 /dev/urandom | od -An -v -tx1 | tr -d ' \n')
nonce=00000000000000000000000000000000

# Runs the four command lines in turn, as often as there are rounds, and prints for each the least milliseconds of
# processor time, the most kilobytes of memory and the least milliseconds by the clock; what needs less memory than this
# measuring process (about 14,000 kB) shows as that.
cat >measure.py <<'END'
import os, resource, subprocess, sys, time
rounds, lines = int(sys.argv[1]), sys.argv[2:]
least, most, clock = [None] * len(lines), [0] * len(lines), [None] * len(lines)
for _ in range(rounds):
    for at, line in enumerate(lines):
        start = time.perf_counter()
        child = subprocess.Popen(["sh", "-c", line], stdout=subprocess.DEVNULL)
        _, status, used = os.wait4(child.pid, 0)
        if status != 0:
            sys.exit("bench: failed: " + line)
        took = 1000 * (time.perf_counter() - start)
        clock[at] = took if clock[at] is None else min(clock[at], took)
        spent = 1000 * (used.ru_utime + used.ru_stime)
        least[at] = spent if least[at] is None else min(least[at], spent)
        most[at] = max(most[at], used.ru_maxrss)
for spent, memory, took in zip(least, most, clock):
    print(round(spent), memory, round(took))
END
mac() { echo "openssl dgst -sha256 -mac HMAC -macopt hexkey:$key $1"; }

"$program" create k1 4 1 >/dev/null || { echo "bench: create failed" >&2; exit 1; }
python3 measure.py "$rounds" \
  "rm -f plain.box && '$program' seal k1 plain.txt plain.box" \
  "openssl enc -chacha20 -K $key -iv $nonce -in plain.txt -out sealed.bin && $(mac sealed.bin)" \
  "rm -f out.txt && '$program' open k1 plain.box out.txt" \
  "$(mac sealed.bin) && openssl enc -d -chacha20 -K $key -iv $nonce -in sealed.bin -out back.txt" >figures.txt || exit 1
cmp -s plain.txt out.txt || { echo "bench: another document came out" >&2; exit 1; }

# one line: what, our milliseconds, kilobytes and milliseconds by the clock, theirs
report() {
  what=$1
  shift
  echo "$what of $bytes bytes: $1 ms and $2 kB, openssl $4 ms and $5 kB, the least and the most of $rounds runs"
  echo "$what by the clock: $3 ms, openssl $6 ms"
  [ "$4" -gt 0 ] && echo "$what ratio in hundredths: time $((100 * $1 / $4)), memory $((100 * $2 / $5))"
  return 0
}
# shellcheck disable=SC2046
report seal $(sed -n 1,2p figures.txt)
# shellcheck disable=SC2046
report open $(sed -n 3,4p figures.txt)
