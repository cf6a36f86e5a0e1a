"""Checks the documents against the repository: names in backquotes are there, code that is quoted stands in a source as
it is quoted, and command lines that are shown with their output give that output. It needs the built programs and no prover. The last line is 'N passed, M failed'."""
import os
import pathlib
import re
import subprocess
import sys
import tempfile

TOP = pathlib.Path(__file__).resolve().parent.parent
DOCS = [TOP / name for name in ("README.md", "CONTRIBUTING.md", "CHANGELOG.md", "conformance/README.md")] + sorted((TOP / "docs").glob("*.md"))
# Names of the toolchain, of the system and of Godot, which stand nowhere in the repository's own files.
OTHERS = set(re.sub(r"#.*", "", (TOP / ".ci" / "other-names.txt").read_text()).split())
PROGRAMS = ("godot_mp_cli", "value_cli", "scene_cli")


def tracked(*endings):
    for path in sorted(TOP.rglob("*")):
        if path.is_file() and "out" not in path.parts and ".git" not in path.parts and path.suffix in endings:
            yield path


def known_words():
    """All words of sources, definitions, proofs, cases, scripts and code blocks, and all parts of file names."""
    words = OTHERS | set(re.findall(r"\w+", (TOP / "crates.txt").read_text()))
    for path in tracked(".rt", ".antt", ".sh", ".py", ".tsv", ".edit", ".session", ".script", ".in", ".out"):
        words.update(path.relative_to(TOP).parts + (path.stem,))
        if path.stat().st_size < 300000:
            words.update(re.findall(r"[\w-]+|\w+", path.read_text(encoding="utf-8", errors="replace")))
    for word in list(words):
        words.update(re.split(r"\W+", word))
    return words


def names_problems(path, words):
    prose = re.sub(r"^```.*?^```", "", path.read_text(encoding="utf-8"), flags=re.M | re.S)
    for span in re.findall(r"`([^`\n]+)`", prose):
        if (TOP / span).exists() or (path.parent / span).exists():
            continue
        missing = [word for word in re.findall(r"[A-Za-z_][\w-]{2,}", span) if word not in words and not set(re.split(r"\W+", word)) <= words]
        if missing and not re.fullmatch(r"[0-9a-f*? ]+|.*[\"\[{].*", span):
            yield f"`{span}`: {', '.join(missing)} stands nowhere"


def shown_commands(path):
    """Command lines of code blocks, after `$ `, with the lines behind them."""
    for block in re.findall(r"^```\w*\n(.*?)^```", path.read_text(encoding="utf-8"), flags=re.M | re.S):
        if block.startswith("$ "):
            for part in re.split(r"^\$ ", block, flags=re.M)[1:]:
                command, _, output = part.partition("\n")
                yield command, output


def quoted_problems(path, sources):
    for block in re.findall(r"^```rust\n(.*?)^```", path.read_text(encoding="utf-8"), flags=re.M | re.S):
        if not any(block in source for source in sources):
            yield f"this code stands in no source:\n{block}"


def main():
    passed = failed = 0
    words = known_words()
    sources = [path.read_text(encoding="utf-8") for path in tracked(".rt")]
    with tempfile.TemporaryDirectory() as folder:
        for name in PROGRAMS:
            program = os.environ.get(name.upper(), TOP / "crates" / name / "out" / name)
            os.symlink(program, pathlib.Path(folder, name))
        environment = dict(os.environ, PATH=folder + os.pathsep + os.environ["PATH"])
        for path in DOCS:
            problems = list(names_problems(path, words)) + list(quoted_problems(path, sources))
            for command, output in shown_commands(path):
                done = subprocess.run(["bash", "-c", command], cwd=TOP, env=environment, stdin=subprocess.DEVNULL, stdout=subprocess.PIPE, stderr=subprocess.STDOUT)
                if done.stdout.decode() != output:
                    problems.append(f"$ {command}\n      gives {done.stdout.decode()[:300]!r}")
                else:
                    passed += 1
            for problem in problems:
                print(f"{path.relative_to(TOP)}: {problem}")
            passed, failed = passed + (not problems), failed + len(problems)
    print(f"{passed} passed, {failed} failed")
    return 1 if failed else 0


sys.exit(main())
