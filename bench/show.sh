#!/usr/bin/env bash
# Times `show` of the proved program over packets of mixed kinds, and measures its memory.
#
#   bench/show.sh [PACKETS]     so many packets (200000), and then twice as many
#
# It prints packets and megabytes of input per second, and the peak memory of both runs: the program
# holds one line at a time, so the second peak is the first. It builds nothing: `rt ci`, or `rt run` in
# crates/godot_mp_cli, makes the program first. PROGRAM names another program to be measured.
set -u
. "$(dirname "$0")/shared.sh"
packets=${1:-200000}
is_count "$packets" || stop 2 "usage: bench/show.sh [PACKETS]"
find_program godot_mp_cli
need_python
exec python3 - "$program" "$packets" <<'P'
import os, struct, subprocess, sys, tempfile, time

program, packets = sys.argv[1], int(sys.argv[2])


def u32(n):
    return struct.pack("<I", n)


def call(i):
    return bytes([0x50]) + struct.pack("<HH", i % 60000, i % 300) + b"\x03\x81\x42" + struct.pack("<h", i % 30000) + b"\x04\0\0\0\x05\0\0\0hello\0\0\0"


def call_by_path(i):
    arguments = b"\x01\x82" + u32(i)
    return b"\x20" + u32(0x80000000 | (6 + len(arguments))) + b"\x02" + arguments + b"level/player%d\0" % (i % 1000)


def simplify(i):
    return b"\x01900150983cd24fb0d6963f7d28e17f72\0" + u32(i % 65536) + b"level/enemy%d\0" % i


def confirm(i):
    return b"\x02\x01" + u32(i)


def raw(i):
    return b"\x03" + bytes((i + k) % 256 for k in range(40))


def spawn(i):
    name = b"p%d\0" % i
    return b"\x04\0" + u32(1) + u32(2 * i + 1) + u32(1) + u32(len(name)) + u32(2 * i + 2) + name + b"\x05\0\0\0\0\0\x80\x3f\0\0\0\x40\x02\x64"


def despawn(i):
    return b"\x05" + u32(i)


def sync(i):
    value = b"\x05\0\0\0\0\0\x80\x3f\0\0\0\x40"
    entry = u32(2 * i + 2) + u32(len(value)) + value
    return b"\x06" + struct.pack("<H", i % 65536) + entry * (1 + i % 4)


def delta(i):
    values = b"\x42" + struct.pack("<h", i % 30000) + b"\x81"
    return b"\x16" + u32(2 * i + 2) + struct.pack("<Q", 3) + u32(len(values)) + values


def relay(i):
    return b"\x07\x03" + u32(2 + i % 60) + sync(i)


def cut_short(i):
    return spawn(i)[: 8 + i % 20]


kinds = [call, call_by_path, simplify, confirm, raw, spawn, despawn, sync, delta, relay, cut_short]


def measure(count, folder):
    path = os.path.join(folder, "packets")
    with open(path, "w") as file:
        for i in range(count):
            file.write(kinds[i % len(kinds)](i).hex() + "\n")
    size = os.path.getsize(path)
    with open(path) as source, open(os.path.join(folder, "lines"), "w") as sink:
        begin = time.monotonic()
        child = subprocess.Popen([program, "show"], stdin=source, stdout=sink)
        _, status, usage = os.wait4(child.pid, 0)
        spent = time.monotonic() - begin
    if status != 0:
        sys.exit(f"the program ended with {os.waitstatus_to_exitcode(status)}")
    with open(os.path.join(folder, "lines")) as file:
        written = sum(1 for _ in file)
    if written != count:
        sys.exit(f"{written} lines for {count} packets")
    print(f"{count} packets, {size / 1e6:.1f} MB: {count / spent:.0f} packets and {size / 1e6 / spent:.1f} MB per second, peak memory {usage.ru_maxrss} KB")
    return usage.ru_maxrss


with tempfile.TemporaryDirectory() as folder:
    first = measure(packets, folder)
    second = measure(2 * packets, folder)
print(f"peak memory at twice the packets: {second / first:.2f} times the first")
if second > first * 1.1:
    sys.exit("memory grows with the input")
P
