"""Writes a session in which two rows are shown to 64 clients.

A row has 64 texts, each of at most 65,528 bytes, which take 8 bytes more in the packet. A Spawn packet of a scene with
one synchronizer has 23 bytes, its name and its values. So the packet of `a` has 4,194,328 bytes, that of the second row
4,194,279 and its name, and 64 times 8,388,608 is 536,870,912.

  python3 conformance/replay/fill.py NAME LINE ..

NAME is the name of the second row; the lines come behind the 64 connects.
"""
import json, sys

name, lines = sys.argv[1], sys.argv[2:]
props = [f"v{i}" for i in range(64)]
scene = {
    "nodes": [{"path": "s", "spawner": {"under": "s", "scenes": ["p"]}}],
    "scenes": [{"name": "p", "props": [[p, ""] for p in props], "methods": [], "syncs": [{"props": [[p, "change", True] for p in props]}]}],
}


def spawn(row, last):
    sizes = [65528] * 63 + [last]
    return ["op", 1, ["spawn", "s", "p", row, [[p, "x" * n] for p, n in zip(props, sizes)]]]


print(json.dumps(scene, separators=(",", ":")))
print(json.dumps(spawn("a", 65528)))
print(json.dumps(spawn(name, 65480)))
for _ in range(64):
    print('["connect"]')
for line in lines:
    print(line)
