#!/usr/bin/env bash
# Times runs of the proved program on a small session: one connect, 30 spawns, their deliveries and two reports.
# bench/replay.sh times a large one.
#
#   bench/run.sh [REPEATS]      REPEATS runs (200) of the same input, one after the other
#
# It builds nothing: `rt ci`, or `rt run` in crates/godot_mp_cli, makes the program first.
set -u
. "$(dirname "$0")/shared.sh"
repeats=${1:-200}
is_count "$repeats" || stop 2 "usage: bench/run.sh [REPEATS]"
find_program godot_mp_cli
work=$(mktemp -d)
trap 'rm -rf "$work"' EXIT
input=$work/session
{
    head -n 1 "$here/../examples/first.session"
    echo '["connect"]'
    for i in $(seq 1 30); do printf '["op",1,["spawn","s","p","n%s",[["v",%s]]]]\n' "$i" "$((i * 1000))"; done
    for i in $(seq 1 30); do echo '["rel",1,2]'; done
    echo '["report",2]'
    echo '["report",2]'
} > "$input"
"$program" replay < "$input" > "$work/out" || exit 1
lines=$(wc -l < "$input")
begin=$(date +%s%N)
for _ in $(seq 1 "$repeats"); do "$program" replay < "$input" > /dev/null; done
end=$(date +%s%N)
# What the same number of runs of a program that does nothing takes: the cost of starting one.
for _ in $(seq 1 "$repeats"); do /bin/true < "$input" > /dev/null; done
idle=$(date +%s%N)
awk -v n="$repeats" -v lines="$lines" -v bytes="$(wc -c < "$input")" -v spent="$((end - begin))" -v start="$((idle - end))" 'BEGIN {
    printf "session: %d lines, %d bytes\n", lines, bytes
    printf "runs per second: %.0f (%.2f times the time of a program that does nothing)\n", n / (spent / 1e9), spent / start
}'
peak=$( { command -v python3 > /dev/null && python3 - "$program" "$input" <<'P'
import resource, subprocess, sys
subprocess.run([sys.argv[1], "replay"], stdin=open(sys.argv[2]), stdout=subprocess.DEVNULL, check=True)
print(resource.getrusage(resource.RUSAGE_CHILDREN).ru_maxrss)
P
} || echo unknown)
echo "peak memory: $peak KB"
