#!/usr/bin/env bash
# Times the reading of large scene lines by the proved program.
#
#   bench/lines.sh [PAIRS]     a dictionary of PAIRS pairs (100000), and of twice as many
#
# Each line is read, judged and told about by `scene_cli`. It times a default value that is one dictionary, one array nested
# 32 deep again and again, and scenes of the greatest size in one direction: 4,096 nodes of 64 properties, 4,096 methods
# of a node, 8 synchronizers of 64 properties each. Of REPEATS runs (3) the fastest counts, and the time of a scene of one
# node is taken off. It prints the times and the ratio of the times of twice the size. A line has at most 33,554,432 bytes.
# It builds nothing: `rt ci`, or `rt run` in crates/scene_cli, makes the program first. PROGRAM names another
# program to be measured. It needs python3.
set -u
. "$(dirname "$0")/shared.sh"
pairs=${1:-100000}
repeats=${REPEATS:-3}
for number in "$pairs" "$repeats"; do
    is_count "$number" || stop 2 "usage: bench/lines.sh [PAIRS], with REPEATS from 1"
done
find_program scene_cli
need_python
exec python3 - "$program" "$pairs" "$repeats" <<'P'
import json, os, subprocess, sys, tempfile, time

program = sys.argv[1]
pairs, repeats = map(int, sys.argv[2:])


def compact(value):
    return json.dumps(value, separators=(",", ":")) + "\n"


def scene_of(node):
    return compact({"nodes": [node], "scenes": []})


def dictionary(count):
    """A scene whose node has a dictionary with so many keys."""
    return scene_of({"path": "a", "props": [["v", {"dict": [[i, None] for i in range(count)]}]]})


def nested(count):
    """A scene whose node has an array with so many arrays that nest 31 deep."""
    deep = None
    for _ in range(31):
        deep = [deep]
    return scene_of({"path": "a", "props": [["v", [deep] * count]]})


def nodes(count):
    """A scene of so many nodes of 64 properties each."""
    props = [["p%d" % i, i] for i in range(64)]
    return compact({"nodes": [{"path": "n%d" % i, "props": props} for i in range(count)], "scenes": []})


def methods(count):
    """A scene whose node has so many methods."""
    one = {"mode": "any", "local": False, "class": "reliable", "args": 0}
    return scene_of({"path": "a", "methods": [dict(one, name="m%d" % i) for i in range(count)]})


def synchronizers(count):
    """A scene to be spawned with so many synchronizers that share 64 properties."""
    props = [["p%d" % i, i] for i in range(64)]
    shared = [[["p%d" % i, "always", True] for i in range(64) if i % count == k] for k in range(count)]
    return compact({"nodes": [], "scenes": [{"name": "s", "props": props, "methods": [], "syncs": [{"props": some} for some in shared]}]})


def run(text, folder):
    """The seconds of the fastest of some runs, the peak memory in KB and what the program says."""
    source, sink = os.path.join(folder, "in"), os.path.join(folder, "out")
    with open(source, "w") as file:
        file.write(text)
    best, peak = None, 0
    for _ in range(repeats):
        with open(source) as stdin, open(sink, "w") as stdout:
            begin = time.monotonic()
            child = subprocess.Popen([program], stdin=stdin, stdout=stdout)
            _, status, usage = os.wait4(child.pid, 0)
            spent = time.monotonic() - begin
        if os.waitstatus_to_exitcode(status) < 0:
            sys.exit("the program was stopped by a signal")
        best = spent if best is None else min(best, spent)
        peak = max(peak, usage.ru_maxrss)
    with open(sink) as file:
        return best, peak, file.read().strip()


def measure(what, make, sizes, folder, idle):
    spent = []
    for count in sizes:
        text = make(count)
        seconds, peak, says = run(text, folder)
        spent.append(max(seconds - idle, 1e-6))
        print("%s, %d: %.3f s (%.1f MB, peak memory %d KB, %s)" % (what, count, spent[-1], len(text) / 1e6, peak, says), flush=True)
    print("    ratio of the times: %.2f (sizes %.2f)" % (spent[1] / spent[0], sizes[1] / sizes[0]), flush=True)


with tempfile.TemporaryDirectory() as folder:
    idle, _, _ = run(scene_of({"path": "a"}), folder)
    print("starting, and a scene of one node: %.3f s" % idle, flush=True)
    measure("pairs of a dictionary", dictionary, (pairs, 2 * pairs), folder, idle)
    measure("arrays that nest 32 deep", nested, (pairs // 10, pairs // 5), folder, idle)
    measure("nodes of 64 properties", nodes, (2048, 4096), folder, idle)
    measure("methods of a node", methods, (2048, 4096), folder, idle)
    measure("synchronizers of a scene", synchronizers, (4, 8), folder, idle)
P
