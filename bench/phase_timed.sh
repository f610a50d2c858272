#!/bin/sh
# Times the phases of a create among 13 members and of a move from 13 to 13, on one thread and with a thread for each seat,
# over the same minds: the least and the middle of some runs, in milliseconds, of processor time and by the clock. `warm`:
# 50 phases in one process, divided by 50; `first`: a phase in a process of its own, less the process without one. It says
# too how many pages the first phase touches, and the most memory. Only a quiet machine's figures say much.
#
# The program is bench/phase_timed, which is proved before it is built. What `rt ci` has passed on this machine isn't proved
# again; where it hasn't run, all below the program is proved first, which takes most of an hour.
# usage: bench/phase_timed.sh
set -eu
here=$(cd "$(dirname "$0")/.." && pwd)
for tool in rt python3; do
    command -v "$tool" >/dev/null 2>&1 || { echo "bench: no $tool: skipped"; exit 0; }
done
work=$(mktemp -d)
trap 'rm -rf "$work"' EXIT
cp "$here/HANDLES" "$work/"
# `commands`, and all that it stands on
names=$(python3 - "$here/crates.txt" <<'END'
import sys
lines = [line.split(":", 1) for line in open(sys.argv[1]) if ":" in line and not line.startswith("#")]
wanted = {"commands"}
for name, below in reversed(lines):
    if name in wanted:
        wanted.update(below.split())
print(*[name for name, _ in lines if name in wanted])
END
)
for name in $names; do
    grep "^$name:" "$here/crates.txt" >> "$work/crates.txt"
    for part in src specs proofs; do
        [ -d "$here/crates/$name/$part" ] || continue
        mkdir -p "$work/crates/$name/$part"
        cp -r "$here/crates/$name/$part/." "$work/crates/$name/$part/"
    done
done
sed -n 's/^commands: /phase_timed: commands /p' "$here/crates.txt" >> "$work/crates.txt"
timed=$work/crates/phase_timed
mkdir -p "$timed/src" "$timed/proofs"
cp "$here/bench/phase_timed/main.txt" "$timed/src/main.rt"
for file in Lib Sitting; do
    cp "$here/bench/phase_timed/$file.txt" "$timed/proofs/$file.antt"
done
for file in "$here"/bench/phase_timed/*-*.txt; do
    name=$(basename "$file" .txt)
    mkdir -p "$timed/proofs/${name%%-*}"
    cp "$file" "$timed/proofs/${name%%-*}/${name#*-}.antt"
done
printf 'create\n0\n' > "$timed/args"
(cd "$work" && rt ci) > "$work/shown" 2>&1 || { tail -n 40 "$work/shown" >&2; exit 1; }
echo "load $(cut -d ' ' -f 1-3 /proc/loadavg), $(nproc) processors"
python3 - "$timed/out/phase_timed" <<'END'
import os, subprocess, sys, time

def run(mode, count):
    began = time.monotonic()
    child = subprocess.Popen([sys.argv[1], mode, str(count)])
    _, status, used = os.wait4(child.pid, 0)
    if status:
        sys.exit(f"bench: {mode} {count} ends with {status}")
    return used.ru_utime + used.ru_stime, time.monotonic() - began, used.ru_minflt, used.ru_maxrss / 1000

def of(values, less=0):
    values = sorted(values)
    return f"{1000 * (values[0] - less):.2f} ({1000 * (values[len(values) // 2] - less):.2f})"

for mode in ("create", "create_on_threads", "move", "move_on_threads"):
    none = [run(mode, 0) for _ in range(50)]
    warm = [run(mode, 50) for _ in range(9)]
    first = [run(mode, 1) for _ in range(120)]
    start, began = min(one[0] for one in none), min(one[1] for one in none)
    print(f"{mode}: warm {of([one[0] / 50 for one in warm])} of processor time, {of([one[1] / 50 for one in warm])} by the clock; "
          f"first {of([one[0] for one in first], start)}, {of([one[1] for one in first], began)}, "
          f"{min(one[2] for one in first)} pages, {max(one[3] for one in first):.1f} MB")
END
echo "load $(cut -d ' ' -f 1-3 /proc/loadavg)"
