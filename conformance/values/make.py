#!/usr/bin/env python3
"""Writes the input of value_cli and what it must print: crates/value_cli/stdin and stdout.

    python3 conformance/values/make.py            writes both
    python3 conformance/values/make.py --check    says whether they are as it would write them

Nothing here comes from the program. The lines are:

1. for each row of godot-values.tsv the bytes that Godot wrote, and the value that Godot printed for them;
2. for each row the same value in compressed form;
3. the rows of other-values.tsv, whose answers are written by hand from docs/FORMATS.md.

What is written for a value is made here from the value, by the tables of docs/FORMATS.md. It differs from what
Godot wrote in two places, in which a form that is read is free: Godot leaves the padding behind a path's names
as it finds it, and zeros are written here; and Godot puts a zero byte at the end of each element of a packed
array of texts, which isn't written here. In every other byte they agree, and this script stops where they don't.
"""
import json
import pathlib
import struct
import sys

HERE = pathlib.Path(__file__).resolve().parent
CRATE = HERE.parent.parent / "crates" / "value_cli"
INT32 = range(-(2**31), 2**31)


class Form:
    """A binary form as it is written, and as Godot writes it, with None for a byte that Godot leaves open."""

    def __init__(self):
        self.written = bytearray()
        self.godot = []

    def put(self, data):
        self.written += data
        self.godot += data

    def word(self, number):
        self.put(struct.pack("<I", number))

    def padding(self, length, is_open=False):
        count = -length % 4
        self.written += bytes(count)
        self.godot += [None if is_open else 0] * count

    def text(self, text, is_open=False):
        data = text.encode()
        self.word(len(data))
        self.put(data)
        self.padding(len(data), is_open)

    def element(self, text):
        """An element of a packed array of texts. Godot's has a zero byte at its end, and counts it."""
        data = text.encode()
        self.written += struct.pack("<I", len(data)) + data + bytes(-len(data) % 4)
        more = data + b"\0"
        self.godot += struct.pack("<I", len(more)) + more + bytes(-len(more) % 4)

    def value(self, value):
        if value is None:
            self.word(0)
        elif isinstance(value, bool):
            self.word(1)
            self.word(int(value))
        elif isinstance(value, int) and value in INT32:
            self.word(2)
            self.put(struct.pack("<i", value))
        elif isinstance(value, int):
            self.word(2 | 1 << 16)
            self.put(struct.pack("<q", value))
        elif isinstance(value, str):
            self.word(4)
            self.text(value)
        elif isinstance(value, list):
            self.word(28)
            self.word(len(value))
            for item in value:
                self.value(item)
        else:
            ((kind, content),) = value.items()
            getattr(self, "put_" + kind)(content)

    def put_name(self, text):
        self.word(21)
        self.text(text)

    def put_path(self, content):
        absolute, names, subnames = content
        self.word(22)
        self.word(len(names) | 1 << 31)
        self.word(len(subnames))
        self.word(int(absolute))
        for name in names + subnames:
            self.text(name, is_open=True)

    def put_ints(self, content):
        code, numbers = content
        self.word(code)
        self.put(struct.pack(f"<{len(numbers)}i", *numbers))

    def put_raw(self, content):
        code, wide, digits = content
        data = bytes.fromhex(digits)
        component = 8 if wide else 4
        sizes = {32: 4, 33: 8, 35: 2 * component, 36: 3 * component, 37: 16, 38: 4 * component}
        self.word(code | (1 << 16 if wide else 0))
        if code in sizes:
            self.word(len(data) // sizes[code])
        self.put(data)

    def put_dict(self, pairs):
        self.word(27)
        self.word(len(pairs))
        for key, value in pairs:
            self.value(key)
            self.value(value)

    def put_bytes(self, digits):
        data = bytes.fromhex(digits)
        self.word(29)
        self.word(len(data))
        self.put(data)
        self.padding(len(data))

    def put_i32(self, numbers):
        self.word(30)
        self.word(len(numbers))
        self.put(struct.pack(f"<{len(numbers)}i", *numbers))

    def put_i64(self, numbers):
        self.word(31)
        self.word(len(numbers))
        self.put(struct.pack(f"<{len(numbers)}q", *numbers))

    def put_texts(self, texts):
        self.word(34)
        self.word(len(texts))
        for text in texts:
            self.element(text)


def form_of(value):
    form = Form()
    form.value(value)
    return form


def small_of(value):
    """The compressed form: one byte for a truth value, the fewest for a number, else the binary form."""
    if isinstance(value, bool):
        return b"\x81" if value else b"\x01"
    if isinstance(value, int):
        for first, bits, layout in ((0x02, 8, "<b"), (0x42, 16, "<h"), (0x82, 32, "<i"), (0xC2, 64, "<q")):
            if -(1 << bits - 1) <= value < 1 << bits - 1:
                return bytes([first]) + struct.pack(layout, value)
    return bytes(form_of(value).written)


def compact(value):
    return json.dumps(value, ensure_ascii=False, separators=(",", ":"))


def told(read, value, written):
    return compact(["value", len(read), value, written.hex()])


def rows(name, count):
    for line in (HERE / name).read_text(encoding="utf-8").split("\n"):
        if line:
            cells = line.split("\t")
            assert len(cells) == count, line
            yield cells


def main():
    given, wanted = [], []
    values = []
    for digits, text, expression in rows("godot-values.tsv", 3):
        read = bytes.fromhex(digits)
        value = json.loads(text)
        assert compact(value) == text, f"not compact JSON: {text}"
        form = form_of(value)
        agrees = len(form.godot) == len(read) and all(ours in (None, byte) for ours, byte in zip(form.godot, read))
        assert agrees, f"Godot wrote other bytes for {expression}"
        values.append((read, value))
        given.append(digits)
        wanted.append(told(read, value, bytes(form.written)))
    for read, value in values:
        small = small_of(value)
        # A value that isn't compressed is read as Godot wrote it.
        if not isinstance(value, (bool, int)):
            read_small = read
        else:
            read_small = small
        given.append("small " + read_small.hex())
        wanted.append(told(read_small, value, small))
    for line, answer, _remark in rows("other-values.tsv", 3):
        given.append(line)
        wanted.append(answer)
    stale = False
    for name, lines in (("stdin", given), ("stdout", wanted)):
        text = "".join(line + "\n" for line in lines)
        path = CRATE / name
        if sys.argv[1:] == ["--check"]:
            if not path.exists() or path.read_bytes() != text.encode():
                print(f"crates/value_cli/{name} isn't what make.py writes")
                stale = True
        else:
            path.write_bytes(text.encode())
    sys.exit(1 if stale else 0)


main()
