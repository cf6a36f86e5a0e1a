"""Runs the cases of this folder, and says how many passed. README.md has their forms; run.sh calls this script."""
import os
import pathlib
import re
import signal
import subprocess
import sys
import tempfile

HERE = pathlib.Path(__file__).resolve().parent
CRATES = HERE.parent / "crates"
SECONDS = int(os.environ.get("CASE_SECONDS", "60"))
PROGRAMS = ("godot_mp_cli", "value_cli", "scene_cli")


def program(name):
    """The proved program, as `rt ci` or `rt run` left it, or the one that an environment variable names."""
    return pathlib.Path(os.environ.get(name.upper(), CRATES / name / "out" / name))


def repeated(body):
    """What stands between `⟨` and `⟩`: bytes in hexadecimal, as `ff`; or how often a text stands there, as `3*x` for xxx
    and `3,x` for x,x,x. In that text `~` is its number, from 0, and `~~` the number as two hexadecimal digits."""
    times = re.match(r"(\d+)([*,])(.*)$", body, re.S)
    if times is None:
        return bytes.fromhex(body)
    count, comma, unit = int(times.group(1)), times.group(2).replace("*", ""), times.group(3)
    if "~" not in unit:
        return comma.join([unit] * count).encode()
    return comma.join(unit.replace("~~", f"{n:02x}").replace("~", str(n)) for n in range(count)).encode()


def spelled(text):
    """The bytes of a cell, in which `⏎` is a line feed."""
    found = re.split(r"⟨([^⟩]*)⟩", text.replace("⏎", "\n"))
    return b"".join(repeated(piece) if place % 2 else piece.encode() for place, piece in enumerate(found))


def filled(template, cells):
    def cell(match):
        value = cells[match.group(1)]
        return str(int(value) + int(match.group(2))) if match.group(2) else value

    return spelled(re.sub(r"\{([a-z]+)(\+\d+)?\}", cell, template))


class Case:
    """One case: how it is run, and what is wanted of it. What is None isn't compared."""

    def __init__(self, name, kind, words=(), given=b"", exit=None, out=None, err=None):
        self.name, self.kind, self.words, self.given = name, kind, list(words), given
        self.exit, self.out, self.err = exit, out, err
        self.program, self.script, self.make, self.is_long = "godot_mp_cli", None, None, False
        self.expect, self.absent, self.counts = None, None, None
        self.parts = None  # of rows that are run together: each one's name, and the lines that it gives

    def problems(self, status, out, err):
        found = []
        if status == "late":
            found.append(f"it took longer than {SECONDS} s")
        elif self.exit is not None and status != self.exit:
            found.append(f"exit status {status}, not {self.exit}")
        if self.out is not None and out != self.out:
            found.append("standard output differs: " + difference(self.out, out))
        if self.err is not None and err != self.err:
            found.append("standard error differs: " + difference(self.err, err))
        lines = out.split(b"\n")
        if self.expect is not None:
            rest = iter(lines)
            for line in self.expect:
                if line not in rest:
                    found.append("this line doesn't come, or not in this order: " + shown(line))
                    break
        for line in self.absent or []:
            if line in lines:
                found.append("this line must not come: " + shown(line))
        for number, pattern in self.counts or []:
            count = sum(1 for line in lines if re.fullmatch(pattern, line))
            if count != number:
                found.append(f"{count} lines match {shown(pattern)}, not {number}")
        return found

    def judged(self, status, out, err):
        """Pairs of a name and what is wrong with it."""
        if self.parts is None:
            return [(self.name, self.problems(status, out, err))]
        lines = out.splitlines(keepends=True)
        if status != 0 or err or len(lines) != sum(len(want) for _, want in self.parts):
            wrong = [f"as one run: exit status {status}, {len(lines)} lines of output, " + shown(err[:200])]
            return [(name, wrong) for name, _ in self.parts]
        told, at = [], 0
        for name, want in self.parts:
            got = lines[at : at + len(want)]
            at += len(want)
            told.append((name, [] if got == want else ["it gives " + difference(b"".join(want), b"".join(got))]))
        return told


def shown(data):
    return data.decode("utf-8", "backslashreplace")


def difference(want, got):
    """The first line of two texts in which they differ."""
    ours, theirs = want.split(b"\n"), got.split(b"\n")
    place = next((n for n, pair in enumerate(zip(ours, theirs)) if pair[0] != pair[1]), min(len(ours), len(theirs)))
    pick = [shown(lines[place])[:200] if place < len(lines) else "(nothing)" for lines in (ours, theirs)]
    return f"line {place + 1} is {pick[1]}, not {pick[0]}"


def folder_case(stem):
    """A case of files: its words or its script, its input, and what is wanted."""

    def read(ending):
        path = stem.with_name(stem.name + ending)
        return path.read_bytes() if path.exists() else None

    def lines(ending):
        data = read(ending)
        return None if data is None else data.split(b"\n")[:-1] if data.endswith(b"\n") else data.split(b"\n")

    name = str(stem.relative_to(HERE))
    words = lines(".words") or []
    case = Case(name, "session" if read(".script") is None else "script", words, read(".in") or b"", None, read(".out"), read(".err"))
    status = read(".exit")
    case.exit = None if status is None else int(status)
    case.is_long = read(".long") is not None
    case.make = stem.with_name(stem.name + ".make") if read(".make") is not None else None
    case.script = stem.with_name(stem.name + ".script") if read(".script") is not None else None
    case.expect, case.absent = lines(".expect"), lines(".absent")
    if lines(".counts") is not None:
        case.counts = [(int(number), pattern) for number, pattern in (line.split(b"\t") for line in lines(".counts"))]
    return case


def table_rows(path):
    """The rows of a table, each with its place, its settings and its cells."""
    settings, columns, rows = {}, [], []
    for number, line in enumerate(path.read_text(encoding="utf-8").split("\n"), 1):
        if line.startswith("@"):
            key, _, text = line[1:].partition(" ")
            if key == "columns":
                columns = text.split()
            elif key == "rows":
                rows += [(place, dict(settings), cells) for place, _, cells in table_rows(path.with_name(text))]
            elif key == "again":
                settings = {}
            else:
                settings[key] = text
        elif line and not line.startswith("#"):
            cells = line.split("\t")
            if len(cells) != len(columns):
                sys.exit(f"{path.relative_to(HERE)}:{number}: {len(cells)} cells, not {len(columns)}")
            rows.append((f"{path.relative_to(HERE)}:{number}", dict(settings), dict(zip(columns, cells))))
    return rows


def fronts(settings, cells):
    """The rows that a row stands for: itself, or one for each front of its bytes."""
    cells = dict(cells)
    for column in settings.get("hex", "").split():
        words = cells[column].split(" ")
        digits = [spelled(word).decode() for word in words]
        cells[column] = "".join(digits)
        if settings.get("fronts") == column:
            starts = [len("".join(digits[:n])) // 2 for n in range(len(digits))]
            for length in range(len(cells[column]) // 2):
                at = max(start for start in starts if start <= length)
                yield dict(cells, **{column: cells[column][: 2 * length], "at": str(at)})
            return
        if "cut" in cells:
            first, last = cells["cut"].split("..")
            for length in range(int(first), int(last)):
                yield dict(cells, **{column: cells[column][: 2 * length], "length": str(length)})
            return
    yield cells


def table_cases(path):
    """The cases of a table. Rows that are run together are one run."""
    cases, together = [], {}
    for place, settings, cells in table_rows(path):
        def text(key, default):
            return filled(settings.get(key, "{" + key + "}" if key in cells else default), row)

        if not place.startswith(f"{path.relative_to(HERE)}:"):
            place = f"{path.relative_to(HERE)} over {place}"
        name = cells.get("name", place)
        name = name if name == place else f"{path.relative_to(HERE).with_suffix('')}/{name}"
        for row in fronts(settings, cells):
            words = text("words", "").decode().split(" ")
            words = [] if words == [""] else words
            given, out, err, status = text("in", ""), text("out", ""), text("err", ""), int(text("exit", "0"))
            if "together" in settings:
                key = (settings.get("program", "godot_mp_cli"), tuple(words))
                if key not in together:
                    together[key] = Case(f"{path.relative_to(HERE)} as one run of {key[0]}", "row", words)
                    together[key].program, together[key].parts, together[key].is_long = key[0], [], "long" in settings
                    cases.append(together[key])
                together[key].given += given
                want = out.splitlines(keepends=True)
                parts = together[key].parts
                if parts and parts[-1][0] == name:
                    parts[-1] = (name, parts[-1][1] + want)
                else:
                    parts.append((name, want))
            else:
                case = Case(name, "row", words, given, status, out, err)
                case.program, case.is_long = settings.get("program", "godot_mp_cli"), "long" in settings
                cases.append(case)
    return cases


def all_cases():
    cases = []
    for path in sorted(HERE.glob("*/*")):
        if path.suffix in (".words", ".script"):
            cases.append(folder_case(path.with_suffix("")))
        elif path.suffix == ".tsv" and re.search("^@(columns|rows) ", path.read_text(encoding="utf-8"), re.M):
            cases += table_cases(path)
    return cases


def run_proved(case):
    """The exit status, standard output and standard error of a case."""
    environment = dict(os.environ, **{name.upper(): str(program(name)) for name in PROGRAMS})
    command = ["bash", str(case.script)] if case.script else [str(program(case.program))] + case.words
    command = [os.fsencode(word) for word in command]
    with tempfile.TemporaryFile() as out, tempfile.TemporaryFile() as err, tempfile.TemporaryDirectory() as folder:
        maker = None
        if case.make:
            maker = subprocess.Popen(["bash", str(case.make)], stdout=subprocess.PIPE, stderr=subprocess.DEVNULL, start_new_session=True)
        pipe = maker.stdout if maker else subprocess.PIPE
        where = HERE.parent if case.script else folder
        child = subprocess.Popen(command, stdin=pipe, stdout=out, stderr=err, cwd=where, env=environment, start_new_session=True)
        if maker:
            maker.stdout.close()
        try:
            child.communicate(None if maker else case.given, timeout=SECONDS)
            status = child.returncode
        except subprocess.TimeoutExpired:
            os.killpg(child.pid, signal.SIGKILL)
            child.wait()
            status = "late"
        if maker:
            if maker.poll() is None:
                os.killpg(maker.pid, signal.SIGKILL)
            maker.wait()
        out.seek(0), err.seek(0)
        return status, out.read(), err.read()


class Tally:
    def __init__(self):
        self.passed, self.failed, self.kinds = 0, 0, {}

    def add(self, case, answer):
        for name, problems in case.judged(*answer):
            self.kinds[case.kind] = self.kinds.get(case.kind, 0) + 1
            if problems:
                self.failed += 1
                print("FAILED", name, *problems, sep="\n    ", flush=True)
            else:
                self.passed += 1

    def left_out(self, case, why):
        count = len(case.parts or [case])
        self.kinds[why] = self.kinds.get(why, 0) + count


def run_unproved(cases, tally):
    """`rt try` builds once, runs each file of a folder, writes each output under a line '== NAME', and each standard
    error before a line 'case=NAME .. status=N'. Of an input that doesn't end it gets a front."""
    print("these are runs of the programs that 'rt try' makes: nothing of them is proved", file=sys.stderr)
    for name in PROGRAMS:
        chosen = []
        for case in cases:
            if case.program != name:
                continue
            if case.is_long or case.script:
                tally.left_out(case, "left out: too long, or a script")
            else:
                chosen.append(case)
        if not chosen:
            continue
        with tempfile.TemporaryDirectory() as folder:
            for number, case in enumerate(chosen):
                given = case.given
                if case.make:
                    given = subprocess.run(["bash", str(case.make)], stdout=subprocess.PIPE, stderr=subprocess.DEVNULL).stdout[:4000000]
                path = pathlib.Path(folder, f"case{number}")
                path.write_bytes(given)
                path.with_suffix(".args").write_bytes(b"".join(os.fsencode(word) + b"\n" for word in case.words))
            command = ["rt", "try", "--cases", folder, "--seconds", str(SECONDS)]
            done = subprocess.run(command, cwd=CRATES / name, stdout=subprocess.PIPE, stderr=subprocess.PIPE)
        outputs = dict(re.findall(rb"^== (case\d+)\n((?:(?!== case\d+\n).*\n?)*)", done.stdout, re.M))
        errors, text = {}, b""
        for line in done.stderr.splitlines(keepends=True):
            head = re.match(rb"case=(case\d+) .*status=(\d+) ", line)
            if head:
                errors[head.group(1)] = (int(head.group(2)), text)
            text = b"" if line.startswith(b"case=") else text + line
        for number, case in enumerate(chosen):
            key = b"case%d" % number
            status, err = errors.get(key, ("no answer", done.stderr[-300:]))
            tally.add(case, (status, outputs.get(key, b""), err))


def main(words):
    unproved, quick = "--unproved" in words, "--quick" in words
    asked = [word for word in words if not word.startswith("--")]
    cases = [case for case in all_cases() if not asked or any(is_asked(case, word) for word in asked)]
    tally = Tally()
    if quick:
        for case in cases:
            if case.is_long:
                tally.left_out(case, "left out: too long")
        cases = [case for case in cases if not case.is_long]
    if unproved:
        run_unproved(cases, tally)
    else:
        for name in PROGRAMS:
            if any(case.program == name for case in cases) and not os.access(program(name), os.X_OK):
                print(f"no proved program stands at crates/{name}/out/{name}: make it by 'rt ci', or by 'rt run' in crates/{name}, or give --unproved", file=sys.stderr)
                print("0 passed, 1 failed")
                return 1
        for case in cases:
            tally.add(case, run_proved(case))
    print(", ".join(f"{count} {kind}s" if kind in ("row", "session", "script") else f"{count} {kind}" for kind, count in sorted(tally.kinds.items())))
    print(f"{tally.passed} passed, {tally.failed} failed")
    return 0 if tally.passed and not tally.failed else 1


def is_asked(case, word):
    names = [case.name] + [name for name, _ in case.parts or []]
    return any(name == word or name.startswith((word + ".tsv", word + "/")) for name in names)


if __name__ == "__main__":
    sys.exit(main(sys.argv[1:]))
