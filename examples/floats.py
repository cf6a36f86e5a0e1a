"""Values of floats for scenes and sessions, as {"raw": [TYPE, WIDE, "HEX"]}, and back. TYPE is Godot's number."""
import struct

FLOAT, VECTOR2, RECT2, VECTOR3, TRANSFORM2D, VECTOR4, QUATERNION, TRANSFORM3D, COLOR = 3, 5, 7, 9, 11, 12, 15, 18, 20


def raw(kind, *numbers):
    return {"raw": [kind, False, struct.pack(f"<{len(numbers)}f", *numbers).hex()]}


def numbers(value):
    kind, wide, digits = value["raw"]
    return [number for (number,) in struct.iter_unpack("<d" if wide else "<f", bytes.fromhex(digits))]


if __name__ == "__main__":
    print(raw(VECTOR2, 1.0, 2.0))
    print(raw(VECTOR3, 0.0, 1.5, -2.0))
    print(raw(COLOR, 1.0, 0.5, 0.0, 1.0))
    print(numbers({"raw": [5, False, "0000803f00000040"]}))
