"""Drives `godot_mp_cli replay` a line at a time, as a network test does: each answer comes before the next line is given.

    python3 examples/drive.py PROGRAM
"""
import json
import subprocess
import sys


class Session:
    def __init__(self, program, scene):
        self.run = subprocess.Popen([program, "replay"], stdin=subprocess.PIPE, stdout=subprocess.PIPE, text=True)
        self.give(scene)

    def give(self, line):
        self.run.stdin.write(json.dumps(line) + "\n")
        self.run.stdin.flush()

    def ask(self, *line):
        """Gives a line, and answers the lines that it gives: the first as soon as it is there, the others up to the
        answer of a line that is always refused."""
        self.give(line)
        told = [json.loads(self.run.stdout.readline())]
        self.give(["rel", 1, 1])
        while True:
            more = json.loads(self.run.stdout.readline())
            if more[1:] == ["refused", "NotLink"]:
                return told
            told.append(more)


def main(program):
    spawner = {"path": "s", "spawner": {"under": "s", "scenes": ["p"]}}
    scene = {"name": "p", "props": [["v", 0]], "methods": [], "syncs": [{"props": [["v", "change", True]]}]}
    session = Session(program, {"nodes": [spawner], "scenes": [scene]})
    print(session.ask("connect"))
    print(session.ask("op", 1, ["spawn", "s", "p", "p1", [["v", 5]]]))
    print(session.ask("rel", 1, 2))
    assert ["value", 2, "s/p1", "v", 5] in session.ask("report", 2)
    session.run.stdin.close()
    print("ended with", session.run.wait())


if __name__ == "__main__":
    main(sys.argv[1])
