#!/usr/bin/env bash
# Times the proved program where rows come and go.
#
#   bench/session.sh [SIZE]      SIZE rows (1000, which is the most), and half as many
#
# Hidden and shown: CLIENTS clients (8) are there, the server spawns SIZE rows, and ROUNDS times (10) each row is
# made not public and then public again. Late joiners: the server spawns twice SIZE rows, and JOINERS clients (64)
# connect after that. Changed: the clients have SIZE rows, and FRAMES times (50) a tenth of the rows is set, a frame is
# run, and what it tells is delivered. Unchanged: the clients have four times SIZE rows, and four times FRAMES frames
# are run in which nothing changed. Each is timed at half the size too. Of REPEATS runs (3) the fastest counts, and the time of a
# scene alone is taken off. It prints the times, their ratios, and the peak memory.
# It builds nothing: `rt ci`, or `rt run` in crates/godot_mp_cli, makes the program first. PROGRAM names another
# program to be measured. It needs python3.
set -u
. "$(dirname "$0")/shared.sh"
size=${1:-1000}
clients=${CLIENTS:-8}
joiners=${JOINERS:-64}
rounds=${ROUNDS:-10}
frames=${FRAMES:-50}
repeats=${REPEATS:-3}
usage="usage: bench/session.sh [SIZE], with SIZE from 2 to 1000, CLIENTS and JOINERS from 1 to 64, ROUNDS, FRAMES and REPEATS from 1"
for number in "$size" "$clients" "$joiners" "$rounds" "$frames" "$repeats"; do
    is_count "$number" || stop 2 "$usage"
done
[ "$size" -ge 2 ] && [ "$size" -le 1000 ] && [ "$clients" -le 64 ] && [ "$joiners" -le 64 ] || stop 2 "$usage"
find_program godot_mp_cli
need_python
exec python3 - "$program" "$size" "$clients" "$joiners" "$rounds" "$frames" "$repeats" <<'P'
import json, os, subprocess, sys, tempfile, time

program = sys.argv[1]
size, clients, joiners, rounds, frames, repeats = map(int, sys.argv[2:])


def compact(value):
    return json.dumps(value, separators=(",", ":")) + "\n"


scene = compact({
    "nodes": [{"path": "s", "spawner": {"under": "s", "scenes": ["p"]}}],
    "scenes": [{"name": "p", "props": [["v", 0]], "methods": [], "syncs": [{"props": [["v", "change", True]]}]}],
})


def spawn(i):
    return compact(["op", 1, ["spawn", "s", "p", "n%d" % i, [["v", i]]]])


def public(i, on):
    return compact(["op", 1, ["public", ["s/n%d" % i, 0], on]])


def hidden_and_shown(count):
    """The lines of a session in which rows are hidden and shown, and how many lines it must write."""
    lines = [compact(["connect"])] * clients + [spawn(i) for i in range(count)]
    for _ in range(rounds):
        lines += [public(i, False) for i in range(count)] + [public(i, True) for i in range(count)]
    return scene + "".join(lines), 2 * clients + count * (1 + clients) * (1 + 2 * rounds)


def late_joiners(count):
    """The lines of a session in which clients come late, and how many lines it must write."""
    rows = 2 * count
    lines = [spawn(i) for i in range(rows)] + [compact(["connect"])] * joiners
    return scene + "".join(lines), rows + joiners * (2 + rows)


def shown(rows):
    """The lines by which the clients get so many rows, and how many lines they must write."""
    lines = [compact(["connect"])] * clients + [spawn(i) for i in range(rows)]
    return lines, 2 * clients + rows * (1 + clients)


def delivered(packets):
    """The lines that deliver so many packets to each client."""
    return [compact(["rel", 1, 2 + i]) for i in range(clients)] * packets


def changed(count):
    """The lines of a session in which frames tell some rows of many, and how many lines it must write."""
    lines, told = shown(count)
    lines += delivered(count)
    told += count * clients
    few = max(count // 10, 1)
    for turn in range(frames):
        lines += [compact(["op", 1, ["set", "s/n%d" % ((turn * few + i) % count), "v", 100000 + turn]]) for i in range(few)]
        lines += [compact(["op", 1, ["frame"]])] + delivered(few)
        told += few + 1 + 2 * few * clients
    return scene + "".join(lines), told


def unchanged(count):
    """The lines of a session in which frames tell nothing, and how many lines it must write."""
    lines, told = shown(4 * count)
    return scene + "".join(lines + [compact(["op", 1, ["frame"]])] * (4 * frames)), told + 4 * frames


def run(text, lines, folder):
    """The seconds of the fastest of some runs, and the peak memory in KB. Each run must write so many lines."""
    source, sink = os.path.join(folder, "in"), os.path.join(folder, "out")
    with open(source, "w") as file:
        file.write(text)
    best, peak = None, 0
    for _ in range(repeats):
        with open(source) as stdin, open(sink, "w") as stdout:
            begin = time.monotonic()
            child = subprocess.Popen([program, "replay"], stdin=stdin, stdout=stdout)
            _, status, usage = os.wait4(child.pid, 0)
            spent = time.monotonic() - begin
        code = os.waitstatus_to_exitcode(status)
        if code != 0:
            sys.exit("the program ended with %d" % code)
        with open(sink) as file:
            written = file.read().splitlines()
        if len(written) != lines:
            sys.exit("%d lines were written, not %d" % (len(written), lines))
        if any('"refused"' in line or '"fault"' in line for line in written):
            sys.exit("an event was refused, or a packet was a fault")
        best = spent if best is None else min(best, spent)
        peak = max(peak, usage.ru_maxrss)
    return best, peak


def measure(what, make, folder, idle):
    spent = []
    for count in (size // 2, size):
        text, lines = make(count)
        seconds, peak = run(text, lines, folder)
        spent.append(max(seconds - idle, 1e-6))
        print("%s, at %d: %.3f s (%.1f MB of input, %d lines of output, peak memory %d KB)" % (what, count, spent[-1], len(text) / 1e6, lines, peak), flush=True)
    if spent[0] < 0.001:
        print("    too short for a ratio", flush=True)
    else:
        print("    ratio of the times: %.2f (sizes %.2f)" % (spent[1] / spent[0], size / (size // 2)), flush=True)


with tempfile.TemporaryDirectory() as folder:
    idle, _ = run(scene, 0, folder)
    print("starting, and the scene: %.3f s" % idle, flush=True)
    measure("rows hidden and shown %d times before %d clients" % (rounds, clients), hidden_and_shown, folder, idle)
    measure("%d late joiners of twice as many rows" % joiners, late_joiners, folder, idle)
    measure("%d frames in which a tenth of the rows changed, told to %d clients" % (frames, clients), changed, folder, idle)
    measure("%d frames over four times as many rows in which nothing changed, before %d clients" % (4 * frames, clients), unchanged, folder, idle)
P
