#!/usr/bin/env bash
# Times the proved program on a large scene and on a large session.
#
#   bench/replay.sh [SIZE]      SIZE nodes and spawns (4000, which is the most), and half as many
#
# The scene has SIZE fixed nodes, each with two properties; it is read and nothing else. The session has CLIENTS
# clients (8), SIZE spawns at the server, a delivery of each of them at each client, and a report of each client.
# It runs over a scene of one fixed node, and over one in which the spawner stands behind SIZE others.
# The sets are fifty times SIZE, of one property or the other of SIZE fixed nodes, with no client.
# Each is timed at half the size too. Of REPEATS runs (3) the fastest counts, and the time of a scene of one node is
# taken off. It prints the times, their ratios, and the peak memory.
# It builds nothing: `rt ci`, or `rt run` in crates/godot_mp_cli, makes the program first. PROGRAM names another
# program to be measured. It needs python3.
set -u
. "$(dirname "$0")/shared.sh"
size=${1:-4000}
clients=${CLIENTS:-8}
repeats=${REPEATS:-3}
usage="usage: bench/replay.sh [SIZE], with SIZE from 2 to 4000, CLIENTS from 1 to 64, REPEATS from 1"
for number in "$size" "$clients" "$repeats"; do
    is_count "$number" || stop 2 "$usage"
done
[ "$size" -ge 2 ] && [ "$size" -le 4000 ] && [ "$clients" -le 64 ] || stop 2 "$usage"
find_program godot_mp_cli
need_python
exec python3 - "$program" "$size" "$clients" "$repeats" <<'P'
import json, os, subprocess, sys, tempfile, time

program = sys.argv[1]
size, clients, repeats = map(int, sys.argv[2:])


def compact(value):
    return json.dumps(value, separators=(",", ":")) + "\n"


def scene_of(count):
    nodes = [{"path": "node%d" % i, "props": [["health", i], ["label", "node %d" % i]]} for i in range(count)]
    return compact({"nodes": nodes, "scenes": []})


def session_of(count, others):
    """The lines of a session over a scene with other fixed nodes too, and how many lines it must write."""
    scene = {
        "nodes": [{"path": "node%d" % i} for i in range(others)] + [{"path": "s", "spawner": {"under": "s", "scenes": ["p"]}}],
        "scenes": [{"name": "p", "props": [["v", 0]], "methods": [], "syncs": [{"props": [["v", "change", True]]}]}],
    }
    lines = [compact(scene)] + [compact(["connect"])] * clients
    lines += [compact(["op", 1, ["spawn", "s", "p", "n%d" % i, [["v", i]]]]) for i in range(count)]
    lines += [compact(["rel", 1, 2 + c]) for _ in range(count) for c in range(clients)]
    lines += [compact(["report", 2 + c]) for c in range(clients)]
    connects = 2 * clients
    spawns = count * (1 + clients)
    deliveries = count * clients
    reports = clients * (3 + others + 2 * count)
    return "".join(lines), connects + spawns + deliveries + reports


def sets_of(count):
    """The lines of a session in which the server sets properties of so many nodes, and how many lines it must write."""
    lines = [scene_of(count)]
    for i in range(50 * count):
        name, value = ("health", i) if i % 2 else ("label", "node %d" % (i % 1000))
        lines.append(compact(["op", 1, ["set", "node%d" % (i * 7 % count), name, value]]))
    return "".join(lines), 50 * count


def run(text, lines, folder):
    """The seconds of the fastest of some runs, and the peak memory in KB. Each run must write so many lines."""
    source, sink = os.path.join(folder, "in"), os.path.join(folder, "out")
    with open(source, "w") as file:
        file.write(text)
    best, peak = None, 0
    for _ in range(repeats):
        with open(source) as stdin, open(sink, "w") as stdout:
            begin = time.monotonic()
            child = subprocess.Popen([program, "replay"], stdin=stdin, stdout=stdout)
            _, status, usage = os.wait4(child.pid, 0)
            spent = time.monotonic() - begin
        code = os.waitstatus_to_exitcode(status)
        if code != 0:
            sys.exit("the program ended with %d" % code)
        with open(sink) as file:
            written = file.read().splitlines()
        if len(written) != lines:
            sys.exit("%d lines were written, not %d" % (len(written), lines))
        if any('"refused"' in line or '"fault"' in line for line in written):
            sys.exit("an event was refused, or a packet was a fault")
        best = spent if best is None else min(best, spent)
        peak = max(peak, usage.ru_maxrss)
    return best, peak


def measure(what, make, folder, idle):
    spent = []
    for count in (size // 2, size):
        text, lines = make(count)
        seconds, peak = run(text, lines, folder)
        spent.append(max(seconds - idle, 1e-6))
        print("%s of %d: %.3f s (%.1f MB of input, %d lines of output, peak memory %d KB)" % (what, count, spent[-1], len(text) / 1e6, lines, peak), flush=True)
    if spent[0] < 0.001:
        print("    too short for a ratio", flush=True)
    else:
        print("    ratio of the times: %.2f (sizes %.2f)" % (spent[1] / spent[0], size / (size // 2)), flush=True)
    return spent[1]


with tempfile.TemporaryDirectory() as folder:
    idle, _ = run(scene_of(1), 0, folder)
    print("starting, and a scene of one node: %.3f s" % idle, flush=True)
    measure("scene with nodes", lambda count: (scene_of(count), 0), folder, idle)
    sets = measure("session with sets, fifty to a node, and nodes", sets_of, folder, idle)
    print("    microseconds a set: %.2f" % (sets / (50 * size) * 1e6), flush=True)
    session = measure("session with %d clients and spawns" % clients, lambda count: session_of(count, 0), folder, idle)
    print("    microseconds a spawn and client: %.2f" % (session / (size * clients) * 1e6), flush=True)
    measure("session over a large scene with %d clients and spawns" % clients, lambda count: session_of(count, count), folder, idle)
P
