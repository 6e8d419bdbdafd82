#!/usr/bin/env python3
"""The examples of the documents (README.md and docs/), as gb_replay takes them.

    bench/guide.py --list          each example: its name, as GUIDE-03, and its line in that document
    bench/guide.py --input NAME    the input of an example, as gb_replay reads it
    bench/guide.py --run PROGRAM   runs each example by PROGRAM and fails where one differs
    bench/guide.py --cases FOLDER  writes each example and its output there, for rt try --cases FOLDER

An example is a block ```replay and the block ```output after it; `status N` after `output` is a status other
than 0. Lines that begin with four spaces are the text of the `put` above them. The gate runs them by
what bench/replays.py writes. The numbers in names leave out those of bench/replays, as GUIDE-08 of
bench/replays/GUIDE-08-a-default-for-a-value.in: no document shows it, and the gate still runs it at its place.
"""
import os
import re
import subprocess
import sys

ROOT = os.path.dirname(os.path.dirname(os.path.abspath(__file__)))
DOCS = ["README.md"] + [f"docs/{name}" for name in sorted(os.listdir(f"{ROOT}/docs")) if name.endswith(".md")]


class Example:
    def __init__(self, name, line, text, output, status):
        self.name = name
        self.line = line
        self.input = text
        self.output = output
        self.status = status


def fail(text):
    sys.exit(f"{os.path.basename(sys.argv[0])}: {text}")


def replay_text(lines, at):
    """The input of gb_replay that a block shows."""
    made = []
    text = None
    for number, line in enumerate(lines, at):
        if line.startswith("    "):
            if text is None:
                fail(f"{number}: text without a put")
            line = line[4:].replace("\\", "\\\\").replace("\t", "\\t")
            made[-1] += (" " if not text else "") + line + "\\n"
            text = True
        else:
            made.append(line)
            text = False if re.fullmatch(r"put \S+", line) else None
    return "".join(line + "\n" for line in made)


def only_run():
    """The names of the examples that no document shows, each with its file without its ending."""
    found = {}
    for file in sorted(os.listdir(os.path.join(ROOT, "bench", "replays"))):
        name = re.match(r"[A-Z_]+-\d\d(?=-)", file)
        if name is not None:
            found[name[0]] = os.path.splitext(file)[0]
    return found


def examples():
    return [example for path in DOCS for example in examples_in(path)]


def examples_in(path):
    with open(os.path.join(ROOT, path), encoding="utf-8") as file:
        lines = file.read().split("\n")
    title = os.path.splitext(os.path.basename(path))[0]
    found = []
    taken = only_run()
    count = 0
    waiting = None
    fence = None
    for number, line in enumerate(lines, 1):
        if fence is not None:
            if line != "```":
                fence[2].append(line)
                continue
            kind, start, block = fence
            fence = None
            if kind == "replay":
                if waiting is not None:
                    fail(f"{path}:{start}: the example above has no output")
                waiting = (start, replay_text(block, start + 1))
                continue
            form = re.fullmatch(r"output( status (\d))?", kind)
            if form is None:
                continue
            if waiting is None:
                fail(f"{path}:{start}: an output without an example")
            text = "".join(line + "\n" for line in block)
            count += 1
            while (name := f"{title}-{count:02}") in taken:
                count += 1
            found.append(Example(name, waiting[0], waiting[1], text, int(form.group(2) or 0)))
            waiting = None
        elif line.startswith("```"):
            fence = (line[3:], number, [])
    if fence is not None or waiting is not None:
        fail(f"{path}: the last block is cut")
    return found


def outcome(program, text):
    """What a program prints of an input, and its status."""
    ran = subprocess.run([program], input=text.encode(), stdout=subprocess.PIPE)
    return ran.stdout.decode(errors="replace"), ran.returncode


def run(program):
    differ = 0
    found = examples()
    for example in found:
        printed, status = outcome(program, example.input)
        if (printed, status) != (example.output, example.status):
            differ += 1
            print(f"---- {example.name}, line {example.line}: status {status}")
            print(printed, end="")
    print(f"{len(found)} examples, {differ} differ")
    return 1 if differ else 0


def write_cases(folder):
    os.makedirs(folder, exist_ok=True)
    for example in examples():
        name = os.path.join(folder, example.name)
        for path, text in ((name, example.input), (name + ".stdout", example.output)):
            with open(path, "w", encoding="utf-8") as file:
                file.write(text)


def main(words):
    if words == ["--list"]:
        for example in examples():
            print(example.name, example.line)
    elif len(words) == 2 and words[0] == "--input":
        named = [example for example in examples() if example.name == words[1]]
        sys.stdout.write(named[0].input if named else fail(f"no example {words[1]}"))
    elif len(words) == 2 and words[0] == "--run":
        return run(words[1])
    elif len(words) == 2 and words[0] == "--cases":
        write_cases(words[1])
    else:
        fail("usage: guide.py --list | --input NAME | --run PROGRAM | --cases FOLDER")
    return 0


if __name__ == "__main__":
    sys.exit(main(sys.argv[1:]))
