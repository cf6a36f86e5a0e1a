#!/usr/bin/env bash
# Times assignments that threads enter at one peer through a hub, beside the same assignments at the bare peer.
#
#   bench/hub.sh [ENTRIES]     ENTRIES assignments (100000; at most 1000000) in all, by 1, 2, 4 and 8 threads
#
# Each thread enters its part of the assignments by a seat of its own. Of REPEATS runs (3) the fastest counts, and the
# time of one assignment is taken off. It prints entries a second, and what an entry takes longer than at the bare peer.
# It builds nothing: `rt ci`, or `rt run` in crates/hub_bench, makes the program first. PROGRAM names another
# program to be measured. It needs python3.
set -u
. "$(dirname "$0")/shared.sh"
entries=${1:-100000}
repeats=${REPEATS:-3}
usage="usage: bench/hub.sh [ENTRIES], with ENTRIES from 8 to 1000000, REPEATS from 1"
for number in "$entries" "$repeats"; do
    is_count "$number" || stop 2 "$usage"
done
[ "$entries" -ge 8 ] && [ "$entries" -le 1000000 ] || stop 2 "$usage"
find_program hub_bench
need_python
exec python3 - "$program" "$entries" "$repeats" <<'P'
import subprocess, sys, time

program = sys.argv[1]
entries, repeats = map(int, sys.argv[2:])


def run(who, count, made):
    """The seconds of the fastest of some runs. Each run must make so many entries."""
    best = None
    for _ in range(repeats):
        begin = time.monotonic()
        done = subprocess.run([program, who, str(count)], stdout=subprocess.PIPE, text=True)
        spent = time.monotonic() - begin
        if done.returncode != 0 or done.stdout != "%d entries\n" % made:
            sys.exit("the program ended with %d and wrote %r" % (done.returncode, done.stdout))
        best = spent if best is None else min(best, spent)
    return best


idle = run("bare", 1, 1)
bare = max(run("bare", entries, entries) - idle, 1e-6)
print("the bare peer: %.0f a second (%.3f s)" % (entries / bare, bare), flush=True)
for threads in (1, 2, 4, 8):
    count = entries // threads
    spent = max(run(str(threads), count, count * threads) - idle, 1e-6)
    more = (spent - bare * count * threads / entries) / (count * threads) * 1e6
    print("%d %s: %.0f entries a second, %.2f microseconds an entry more than at the bare peer" % (threads, "thread" if threads == 1 else "threads", count * threads / spent, more), flush=True)
P
