#!/usr/bin/env bash
# Times the proved program value_cli at reading and writing values, beside a plain copy of the same bytes
# made by the same program in the same way.
#
#   bench/values.sh [KILOBYTES]      about so many kilobytes of each value (1000), and twice as many
#
# Each number is the difference of a run that does the work 2N times and one that does it N times, so that
# starting the program and reading its input count for nothing; of five runs each the fastest counts. A copy
# of 1 MB may stay within a processor's cache, and one of 2 MB may not.
# It builds nothing: `rt ci`, or `rt run` in crates/value_cli, makes the program first. It needs python3.
set -u
. "$(dirname "$0")/shared.sh"
size=${1:-1000}
is_count "$size" || stop 2 "usage: bench/values.sh [KILOBYTES]"
[ "$size" -le 4000 ] || stop 2 "at most 4000 kilobytes: a value has at most 8 MB, and twice the size is timed too"
find_program value_cli
need_python
exec python3 - "$program" "$size" <<'P'
import resource
import struct
import subprocess
import sys

PROGRAM, KILOBYTES = sys.argv[1], int(sys.argv[2])


def word(n):
    return struct.pack("<I", n)


def text(s):
    data = s.encode()
    return word(4) + word(len(data)) + data + bytes(-len(data) % 4)


def number(n):
    return word(2) + struct.pack("<i", n)


def mixed(size):
    """An array of nil, truth values, numbers, texts, vectors, packed arrays and small arrays in turn."""
    round_ = (
        word(0) + word(1) + word(1) + number(-7) + word(2 | 1 << 16) + struct.pack("<q", 1 << 40)
        + text("position") + word(21) + word(4) + b"name" + word(5) + bytes(8) + word(10) + bytes(12)
        + word(29) + word(6) + b"packed" + bytes(2) + word(30) + word(3) + bytes(12)
        + word(28) + word(2) + number(1) + text("in an array")
    )
    items = 11
    rounds = max(1, size // len(round_))
    return word(28) + word(items * rounds) + round_ * rounds


def packed(size):
    return word(29) + word(size // 4 * 4) + bytes(i * 7 % 256 for i in range(size // 4 * 4))


def pairs(size):
    """A dictionary of small pairs: a number, and a number. 50,000 of them at 1,000 kilobytes."""
    count = size // 20
    return word(27) + word(count) + b"".join(number(i * 40503 % (1 << 31)) + number(i) for i in range(count))


def seconds(line, work, times):
    before = resource.getrusage(resource.RUSAGE_CHILDREN)
    done = subprocess.run([PROGRAM, "repeat", work, str(times)], input=line, capture_output=True, check=True)
    after = resource.getrusage(resource.RUSAGE_CHILDREN)
    assert done.stdout.strip().isdigit(), done.stdout
    return after.ru_utime + after.ru_stime - before.ru_utime - before.ru_stime


def once(data, work):
    """Processor seconds that the work takes on the bytes."""
    line = data.hex().encode() + b"\n"
    start = seconds(line, work, 1)
    times = 1
    while seconds(line, work, 2 * times) - start < 0.3 and times < 1 << 20:
        times *= 2
    most, least = ([seconds(line, work, n) for _ in range(5)] for n in (2 * times, times))
    return (min(most) - min(least)) / times


print("                              MB per second   of a copy   twice the size takes")
for name, make in (("array of mixed values", mixed), ("packed bytes", packed), ("dictionary of small pairs", pairs)):
    single, double = make(KILOBYTES * 1000), make(2 * KILOBYTES * 1000)
    copied = None
    for work in ("copy", "decode", "encode"):
        spent = once(single, work)
        longer = once(double, work)
        copied = copied or spent
        print(
            f"{name + ', ' + work:<34}{len(single) / 1e6 / spent:>9.1f}   {copied / spent:>9.4f}"
            f"   {longer / spent:>6.2f} times the time"
        )
P
