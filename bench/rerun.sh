#!/usr/bin/env bash
# Times `rerun` of a journal beside `replay` of a session of equal size.
#
#   bench/rerun.sh [LINES]      LINES events (100000), and half as many
#
# The journal has LINES lines, each of which assigns a number to a property of the server's one node, and its report. The
# session has the same lines at peer 1, and asks for the same report. Of REPEATS runs (3) the fastest counts, and the time of
# the scene alone is taken off. It prints the times, their ratio at each size, and the peak memory.
# It builds nothing: `rt ci`, or `rt run` in crates/godot_mp_cli, makes the program first. PROGRAM names another
# program to be measured. It needs python3.
set -u
. "$(dirname "$0")/shared.sh"
size=${1:-100000}
repeats=${REPEATS:-3}
usage="usage: bench/rerun.sh [LINES], with LINES from 2, REPEATS from 1"
for number in "$size" "$repeats"; do
    is_count "$number" || stop 2 "$usage"
done
[ "$size" -ge 2 ] || stop 2 "$usage"
find_program godot_mp_cli
need_python
exec python3 - "$program" "$size" "$repeats" <<'P'
import json, os, subprocess, sys, tempfile, time

program = sys.argv[1]
size, repeats = map(int, sys.argv[2:])


def compact(value):
    return json.dumps(value, separators=(",", ":")) + "\n"


scene = compact({"nodes": [{"path": "a", "props": [["hp", 10]]}], "scenes": []})


def journal(count):
    return scene + compact(["peer", 1]) + "".join(compact(["op", ["set", "a", "hp", i]]) for i in range(count))


def session(count):
    return scene + "".join(compact(["op", 1, ["set", "a", "hp", i]]) for i in range(count)) + compact(["report", 1])


def run(command, text, done, folder):
    """The seconds of the fastest of some runs, and the peak memory in KB. Each run must do so many events."""
    source, sink = os.path.join(folder, "in"), os.path.join(folder, "out")
    with open(source, "w") as file:
        file.write(text)
    best, peak = None, 0
    for _ in range(repeats):
        with open(source) as stdin, open(sink, "w") as stdout:
            begin = time.monotonic()
            child = subprocess.Popen([program, command], stdin=stdin, stdout=stdout)
            _, status, usage = os.wait4(child.pid, 0)
            spent = time.monotonic() - begin
        code = os.waitstatus_to_exitcode(status)
        if code != 0:
            sys.exit("the program ended with %d" % code)
        with open(sink) as file:
            said = sum('"done"' in line for line in file)
        if said != done:
            sys.exit("%d events were done, not %d" % (said, done))
        best = spent if best is None else min(best, spent)
        peak = max(peak, usage.ru_maxrss)
    return best, peak


with tempfile.TemporaryDirectory() as folder:
    idle, _ = run("replay", scene, 0, folder)
    print("starting, and the scene: %.3f s" % idle, flush=True)
    for count in (size // 2, size):
        spent = []
        for command, text in (("replay", session(count)), ("rerun", journal(count))):
            # a session answers the line that asks for the report too
            done = count + 1 if command == "replay" else count
            seconds, peak = run(command, text, done, folder)
            spent.append(max(seconds - idle, 1e-6))
            print("%s of %d events: %.3f s (%.1f MB of input, peak memory %d KB)" % (command, count, spent[-1], len(text) / 1e6, peak), flush=True)
        print("    a journal takes %.2f of the time of a session" % (spent[1] / spent[0]), flush=True)
P
